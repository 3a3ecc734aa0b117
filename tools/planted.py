#!/usr/bin/env python3
"""Plants one error at a time in the definitions of crates/rules, and has the prover show that it breaks a law or a case.

For each error below, a copy of the crate gets that one edit in specs/, and a function whose contract says that the laws
(or the table of cases) do not hold, with a run that shows it. Where the prover accepts that contract, the error is caught:
no proof of the law could have been found. docs/LAWS.md has the list in words. Run it from anywhere; some minutes.
"""
import re
import shutil
import subprocess
import sys
import tempfile
from pathlib import Path

TOP = Path(__file__).resolve().parent.parent
T = "specs/Transition.antt"
C = "specs/Checks.antt"
O = "specs/Ownership.antt"

# A witness is the number of a mailbox's field, or of a list's length, under a law of the run of some commands: the error
# makes the law say that the two numbers given are equal.
TIME = "ap (λ (r : Register). r.time) ((law L house ({run})).held 0 (lit< tt))"
LIMIT = "ap (λ (r : Register). r.limit) ((law L house ({run})).held {k} (lit< tt))"
OWNER = "ap (λ (r : Register). r.owner) ((law L house ({run})).held 0 (lit< tt))"
WORDS = "ap length ((law L house ({run})).kept 0 (lit< tt))"
FIRST = "ap (λ (ws : List ℕ). get_or ws 0 0) ((law L house ({run})).kept 0 (lit< tt))"
CASE = "ap (λ (l : List (ℕ × ℕ)). (get_or l {n} (0, 0)).{part}) L.{case}"

GRANT = "Delegate 0 0 1 5 5 ∷ "
RESET = "GuardWrite 0 2 arm ∷ GuardWrite 0 2 try ∷ "


def number(term, a, b, **words):
    """The law, as computed, says that a is b."""
    return f"λ L. let p : ◌≡◌ {{A = ℕ}} {a} {b} = {term.format(**words)} in omega arith"


# name, file, text, text in its place, what breaks, the statement denied, its denial
ERRORS = [
    ("a tick skips every mailbox", T, "all_aged (suc n) s = aged (all_aged n s) n", "all_aged (suc n) s = all_aged n s",
     "held", "RunsAreLawful", number(TIME, 5, 4, run=GRANT + "Tick ∷ []")),
    ("a time of 1 is already over", T, "in over_if (r.time == 0) s k r", "in over_if (r.time == 1) s k r",
     "held", "RunsAreLawful", number(OWNER, 0, 1, run="Delegate 0 0 1 5 2 ∷ Tick ∷ []")),
    ("an access is not counted", T, "paid c r = cond (c == r.owner) (accessed r) r", "paid c r = r",
     "held", "RunsAreLawful", number(LIMIT, 5, 4, k=0, run=GRANT + "Send 1 0 7 ∷ []")),
    ("the fixed domain pays", T, "paid c r = cond (c == r.owner) (accessed r) r", "paid c r = accessed r",
     "held", "RunsAreLawful", number(LIMIT, 4, 5, k=1, run="Delegate 0 1 1 5 5 ∷ Send 4 1 7 ∷ []")),
    ("a stranger's yield is accepted", C, "not_owner s c k = (not (c == owner s k), NotItsMailbox)", "not_owner s c k = (false, NotItsMailbox)",
     "held", "RunsAreLawful", number(OWNER, 0, 1, run=GRANT + "Yield 3 0 ∷ []")),
    ("a delegation keeps old words", T, "= transferred s k (record { owner = to; limit = l; time = t })", "= with_register s k (record { owner = to; limit = l; time = t })",
     "kept", "RunsAreLawful", number(WORDS, 1, 2, run="Send 0 0 7 ∷ " + GRANT + "[]")),
    ("a spent limit wipes nothing", T, "over_if over s k r = cond over (transferred s k managers)", "over_if over s k r = cond over (with_register s k managers)",
     "kept", "RunsAreLawful", number(WORDS, 1, 2, run="Delegate 0 0 1 1 5 ∷ Send 1 0 7 ∷ []")),
    ("a reset leaves the mailbox's words", T, "(wiped_if (x == device d) 8 (wiped_at d x d.mailboxes s.queues))", "(wiped_if (x == device d) 8 s.queues)",
     "kept", "RunsAreLawful", number(WORDS, 1, 2, run="Send 0 0 7 ∷ " + RESET + "[]")),
    ("a receive leaves its word", T, "(charged c (with_queues s (change shrunk s.queues k)) k)", "(charged c s k)",
     "kept", "RunsAreLawful", number(WORDS, 1, 2, run=GRANT + "Send 1 0 7 ∷ Receive 2 0 ∷ []")),
    ("a receive answers another word", T, "value d s (Receive c k) = oldest (queue s k)", "value d s (Receive c k) = 0",
     "kept", "RunsAreLawful", number(FIRST, 7, 0, run=GRANT + "Send 1 0 7 ∷ Receive 2 0 ∷ []")),
    ("a streamed word goes to a mailbox", "specs/Route.antt", "streams_to Own = 8", "streams_to Own = 0",
     "kept", "RunsAreLawful", number(WORDS, 0, 1, run="Stream 7 ∷ []")),
    ("the reset of a held mailbox's fixed domain is not blocked", O, "owners k == x || (fixed d k == x && not (owners k == 0))", "owners k == x",
     "alike", "RunsAreLawful",
     number("ap (λ (ls : List Line). code (get_or ls 1 no_line).answer) (two_runs L)", 17, 0)),
    ("a delegation to an unwired domain is accepted", C, "not_wired d k x = (not (is_wired d k x), NotWired)", "not_wired d k x = (false, NotWired)",
     "wired", "RunsAreLawful",
     "λ L. ⊎_elim (λ e. let p : ◌≡◌ {A = ℕ} 4 0 = e in omega arith) (λ e. false≢true e) ((law L house (Delegate 0 0 4 5 5 ∷ [])).wired 0 (lit< tt))"),
    ("the arbiter is left on", T, "fallen_back d s t = with_route t (cond (entitled d (owner s) && not (entitled d (owner t))) Own t.route)", "fallen_back d s t = t",
     "fed", "RunsAreLawful", "λ L. let f = (law L house (" + GRANT + "Arbiter 0 dma ∷ Yield 1 0 ∷ [])).fed refl in unowned f.0 f.1 f.2"),
    ("DMA is selected with no holding", C, "not_entitled d s v = (v == dma && not (entitled d (owner s)), NotEntitled)", "not_entitled d s v = (false, NotEntitled)",
     "fed", "RunsAreLawful", "λ L. let f = (law L house (Arbiter 0 dma ∷ [])).fed refl in unowned f.0 f.1 f.2"),
    ("a limit of 4095 is refused", C, "beyond figure = figure == 0 || nat_lt unlimited figure", "beyond figure = figure == 0 || nat_le unlimited figure",
     "case limits", "Table", number(CASE, 13, 0, case="limits", n=4, part=0)),
    ("a full queue is said to be empty", C, "queue_full s q = (full (queue s q), QueueFull)", "queue_full s q = (full (queue s q), QueueEmpty)",
     "case seventeenth", "Table", number(CASE, 17, 16, case="seventeenth", n=1, part=0)),
    ("a stranger reads the register", T, "value d s (Status c k) = cond (stranger d s c k) concealed (packed (register s k))", "value d s (Status c k) = packed (register s k)",
     "case strangers", "Table", number(CASE, "0x00FFFFFF", "0xFFFFFFFF", case="strangers", n=2, part=1)),
    ("a mailbox is looked for before the caller", C, "checks d s (Status c k) = unknown_caller d c ∷ unknown_mailbox d k ∷ []", "checks d s (Status c k) = unknown_mailbox d k ∷ unknown_caller d c ∷ []",
     "case unknown", "Table", number(CASE, 6, 5, case="unknown", n=4, part=0)),
    ("nothing is ever blocked, for the ledger either", O, "blocked d owners x = some_below d.mailboxes (blocks d owners x)", "blocked d owners x = some_below 0 (blocks d owners x)",
     "case worked", "Table", number(CASE, "0x0000AAAA", "0x0000FFFF", case="worked", n=5, part=1)),
]

SOURCE = """// An error is planted in the definitions, and the statement no longer holds.
ghost use Rattle.rules.specs.Cases.{Table};
ghost use Rattle.rules.specs.Laws.{RunsAreLawful};

#[tactic(auto, using(crate::proofs::Denial::denial))]
pub fn denied()
    ensures { STATEMENT → ⊥ }
{
}
"""

DENIAL = """-- A run that shows it.
use Rattle.std.proofs.Common.{◌≡◌, ℕ, zero, suc, ◌<◌, ◌≤◌, lit≤, lit<, Bool, true, false, List, [], ◌∷◌, ◌++◌, length, get_or, replicate, Ok, refl, ap, ⊎_elim, arith}
use Rattle.std.proofs.lemmas.List.{get_or-replicate, get_or_past}
use Rattle.std.proofs.lemmas.Bool.{cases_lt, false≢true}
use Rattle.bank.specs.Queues.{Queue, Sound, at, no_queue}
use Rattle.rules.specs.declared.command.Command.{Command}
use Rattle.rules.specs.declared.command.Command.TheVariants.{Delegate, Yield, Send, Receive, Status, GuardWrite, GuardRead, Arbiter, Stream, Pull, Tick}
use Rattle.rules.specs.declared.description.Description.{Description}
use Rattle.rules.specs.declared.register.Register.{Register}
use Rattle.rules.specs.Cases.{Table, after, house, made}
use Rattle.rules.specs.Ends.{Line, delegation, lines}
use Rattle.rules.specs.Guard.{arm, try}
use Rattle.rules.specs.Laws.{Lawful, Runs, RunsAreLawful}
use Rattle.rules.specs.Ledger.{Event, ledger}
use Rattle.rules.specs.Refusal.{code}
use Rattle.rules.specs.Route.{dma}
use Rattle.rules.specs.State.{State, owner}
use Rattle.rules.specs.Transition.{answer, next}

abbrev deep : Queue
deep = record { depth = 16; words = [] }

sound : Sound (replicate 10 deep)
sound = record {
  ten = refl;
  least = λ q h. at_deep q (λ u. 1 ≤ u.depth) h (lit≤ tt);
  most = λ q. every q (λ u. u.depth ≤ 4096) (lit≤ tt) (lit≤ tt);
  fits = λ q. every q (λ u. length u.words ≤ u.depth) (lit≤ tt) (lit≤ tt);
}
  where
    at_deep : (q : ℕ) (P : Queue → Type 0) → q < 10 → P deep → P (at (replicate 10 deep) q)
    at_deep q P h p = rw (get_or-replicate 10 q deep no_queue h) p

    every : (q : ℕ) (P : Queue → Type 0) → P deep → P no_queue → P (at (replicate 10 deep) q)
    every q P p n = ⊎_elim (λ h. at_deep q P h p) (λ h. rw (get_or_past (replicate 10 deep) q no_queue h) n) (cases_lt q 10)

-- the run of some commands
abbrev trace : Description → State → List Command → List Event
trace d s [] = []
trace d s (c ∷ cs) = record { command = c; answer = answer d s c } ∷ trace d (next d s c) cs

runs : (d : Description) (s : State) (cs : List Command) → Runs d s (trace d s cs) (after d s cs)
runs d s [] = refl
runs d s (c ∷ cs) = (refl, runs d (next d s c) cs)

law : RunsAreLawful → (d : Description) (cs : List Command) → Lawful d (replicate 10 deep) (trace d made cs) (after d made cs)
law L d cs = L d (replicate 10 deep) sound (trace d made cs) (after d made cs) (runs d made cs)

no_line : Line
no_line = record { command = Tick; answer = Ok 0; lasts = false }

-- two runs that begin with one delegation of mailbox 0 to domain 1
abbrev behind : List Event → List Event
behind [] = []
behind (e ∷ es) = es

abbrev reset_between : List Command
reset_between = Delegate 0 0 1 5 5 ∷ Send 1 0 7 ∷ GuardWrite 0 2 arm ∷ GuardWrite 0 2 try ∷ Receive 2 0 ∷ []

abbrev nothing_between : List Command
nothing_between = Delegate 0 0 1 5 5 ∷ Send 1 0 7 ∷ Receive 2 0 ∷ []

abbrev seen : List Command → List Line
seen cs = lines house 0 1 (ledger house (delegation 0 0 1 5 5 0 ∷ [])) (behind (trace house made cs))

two_runs : RunsAreLawful → seen reset_between ≡ seen nothing_between
two_runs L =
    (law L house reset_between).alike (replicate 10 deep) sound (trace house made nothing_between) (after house made nothing_between) (runs house made nothing_between)
    0 (lit< tt) refl 1 5 5 0 0 0 0 [] (behind (trace house made reset_between)) [] [] (behind (trace house made nothing_between)) [] refl refl refl

-- no mailbox of the house is domain 1's
unowned : (k : ℕ) → k < 2 → owner made k ≡ 1 → ⊥
unowned zero l e = let p : ◌≡◌ {A = ℕ} 0 1 = e in omega arith
unowned (suc zero) l e = let p : ◌≡◌ {A = ℕ} 0 1 = e in omega arith
unowned (suc (suc k)) l e = absurd (omega arith)

pub denial : STATEMENT → ⊥
denial = PROOF
"""


def plant(work, error):
    name, file, old, new, breaks, statement, proof = error
    rules = work / "crates/rules"
    shutil.rmtree(rules, ignore_errors=True)
    shutil.copytree(TOP / "crates/rules", rules, ignore=shutil.ignore_patterns("out"))
    shutil.rmtree(rules / "must-fail")
    (rules / "src/tests.rt").unlink()
    source = (rules / "src/lib.rt").read_text().replace("#[cfg(test)]\nmod tests;\n", "")
    source = re.sub(r"pub use theorems::\{[^}]*\};", "pub use theorems::denied;", source)
    (rules / "src/lib.rt").write_text(source)
    (rules / "src/theorems.rt").write_text(SOURCE.replace("STATEMENT", statement))
    for path in (rules / "proofs").glob("*.antt"):
        if path.name not in ("Registers.antt", "Wirings.antt"):
            path.unlink()
    (rules / "proofs/Lib.antt").write_text("pub mod Denial\npub mod Registers\npub mod Wirings\n")
    (rules / "proofs/Denial.antt").write_text(DENIAL.replace("STATEMENT", statement).replace("PROOF", proof))
    spec = (rules / file).read_text()
    if spec.count(old) != 1:
        return f"the text to change stands {spec.count(old)} times in {file}"
    (rules / file).write_text(spec.replace(old, new))
    return None


def main():
    with tempfile.TemporaryDirectory() as folder:
        work = Path(folder)
        (work / "crates.txt").write_text("fifo:\nbank: fifo\nrules: bank fifo\n")
        for name in ("fifo", "bank"):
            shutil.copytree(TOP / "crates" / name, work / "crates" / name, ignore=shutil.ignore_patterns("out"))
        missed = 0
        for error in ERRORS:
            fault = plant(work, error)
            if fault is None:
                run = subprocess.run(["rt", "check"], cwd=work / "crates/rules", capture_output=True, text=True)
                fault = None if run.returncode == 0 else "not shown\n" + "\n".join(
                    line for line in (run.stdout + run.stderr).split("\n") if "error" in line or "no proof" in line)
            print(f"{error[0]}: breaks {error[4]}" if fault is None else f"{error[0]}: {fault}", flush=True)
            missed += fault is not None
        print(f"{len(ERRORS) - missed} caught, {missed} missed")
    return 1 if missed else 0


if __name__ == "__main__":
    sys.exit(main())
