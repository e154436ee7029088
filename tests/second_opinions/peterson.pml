/* Written by tools/to_promela.py from peterson.model. */
/* alive: the checker looks for deadlocks without claims */
/* entry: left out, since it depends on which step is taken, or on more than tests inside a fixpoint */
/* tries: left out, since it depends on which step is taken, or on more than tests inside a fixpoint */
/* passed_once: left out, since it depends on which step is taken, or on more than tests inside a fixpoint */
/* enters_fair: left out, since it depends on which step is taken, or on more than tests inside a fixpoint */
#define noncritical 0
#define flagged 1
#define waiting 2
#define critical 3
byte p = noncritical;
byte q = noncritical;
bool turn = false;

active proctype steps() {
  do
  /* flag1 */
  :: d_step { p == noncritical -> p = flagged }
  /* wait1 */
  :: d_step { p == flagged -> p = waiting; turn = true }
  /* enter1 */
  :: d_step { p == waiting && (q == noncritical || !turn) -> p = critical }
  /* leave1 */
  :: d_step { p == critical -> p = noncritical }
  /* flag2 */
  :: d_step { q == noncritical -> q = flagged }
  /* wait2 */
  :: d_step { q == flagged -> q = waiting; turn = false }
  /* enter2 */
  :: d_step { q == waiting && (p == noncritical || turn) -> q = critical }
  /* leave2 */
  :: d_step { q == critical -> q = noncritical }
  od
}
ltl safe { [] (!(p == critical && q == critical)) }
ltl enters { [] <> (p == critical || !(p == noncritical || p == flagged || p == waiting && (q == noncritical || !turn) || p == critical || q == noncritical || q == flagged || q == waiting && (p == noncritical || turn) || q == critical)) }
