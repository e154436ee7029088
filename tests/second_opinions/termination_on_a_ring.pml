/* Written by tools/to_promela.py from termination_on_a_ring.model. */
/* alive: the checker looks for deadlocks without claims */
bool active_1[4] = true;
bool black[4] = false;
byte at = 0;
bool white = false;

active proctype steps() {
  do
  /* send(0, 1) */
  :: d_step { active_1[0] -> active_1[1] = true; black[0] = true }
  /* send(0, 2) */
  :: d_step { active_1[0] -> active_1[2] = true; black[0] = true }
  /* send(0, 3) */
  :: d_step { active_1[0] -> active_1[3] = true; black[0] = true }
  /* send(1, 0) */
  :: d_step { active_1[1] -> active_1[0] = true; black[1] = black[1] }
  /* send(1, 2) */
  :: d_step { active_1[1] -> active_1[2] = true; black[1] = true }
  /* send(1, 3) */
  :: d_step { active_1[1] -> active_1[3] = true; black[1] = true }
  /* send(2, 0) */
  :: d_step { active_1[2] -> active_1[0] = true; black[2] = black[2] }
  /* send(2, 1) */
  :: d_step { active_1[2] -> active_1[1] = true; black[2] = black[2] }
  /* send(2, 3) */
  :: d_step { active_1[2] -> active_1[3] = true; black[2] = true }
  /* send(3, 0) */
  :: d_step { active_1[3] -> active_1[0] = true; black[3] = black[3] }
  /* send(3, 1) */
  :: d_step { active_1[3] -> active_1[1] = true; black[3] = black[3] }
  /* send(3, 2) */
  :: d_step { active_1[3] -> active_1[2] = true; black[3] = black[3] }
  /* rest(0) */
  :: d_step { active_1[0] -> active_1[0] = false }
  /* rest(1) */
  :: d_step { active_1[1] -> active_1[1] = false }
  /* rest(2) */
  :: d_step { active_1[2] -> active_1[2] = false }
  /* rest(3) */
  :: d_step { active_1[3] -> active_1[3] = false }
  /* pass(1) */
  :: d_step { at == 1 && !active_1[1] -> at = 0; white = white && !black[1]; black[1] = false }
  /* pass(2) */
  :: d_step { at == 2 && !active_1[2] -> at = 1; white = white && !black[2]; black[2] = false }
  /* pass(3) */
  :: d_step { at == 3 && !active_1[3] -> at = 2; white = white && !black[3]; black[3] = false }
  /* again */
  :: d_step { at == 0 && !active_1[0] && !(at == 0 && white && !active_1[0] && !black[0]) -> at = 3; white = true; black[0] = false }
  od
}
ltl sound { [] (!(at == 0 && white && !active_1[0] && !black[0]) || !active_1[0] && !active_1[1] && !active_1[2] && !active_1[3]) }
ltl detected { [] ((!active_1[0] && !active_1[1] && !active_1[2] && !active_1[3]) -> <> (at == 0 && white && !active_1[0] && !black[0])) }
ltl passive_ends { [] ((!active_1[0] && !active_1[1] && !active_1[2] && !active_1[3]) -> [] (!active_1[0] && !active_1[1] && !active_1[2] && !active_1[3])) }
ltl quiet { [] <> (!active_1[0] && !active_1[1] && !active_1[2] && !active_1[3] || !(active_1[0] || active_1[0] || active_1[0] || active_1[1] || active_1[1] || active_1[1] || active_1[2] || active_1[2] || active_1[2] || active_1[3] || active_1[3] || active_1[3] || active_1[0] || active_1[1] || active_1[2] || active_1[3] || at == 1 && !active_1[1] || at == 2 && !active_1[2] || at == 3 && !active_1[3] || at == 0 && !active_1[0] && !(at == 0 && white && !active_1[0] && !black[0]))) }
