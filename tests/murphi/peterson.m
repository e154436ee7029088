-- Peterson's mutual exclusion algorithm for two processes (Peterson 1981), one statement a rule.
const
  processes: 2;

type
  pid: 1 .. processes;
  place: enum { idle, flagged, giving, waiting, critical };

var
  at: array [pid] of place;
  flag: array [pid] of boolean;
  turn: pid;

ruleset p: pid do
  alias here: at[p] do

    rule "raise flag"
      here = idle
    ==>
    begin
      flag[p] := true;
      here := giving;
    end;

    rule "give turn"
      here = giving
    ==>
    begin
      turn := 3 - p;
      here := waiting;
    end;

    rule "enter"
      here = waiting & forall q: pid do q != p -> !flag[q] | turn = p end
    ==>
    begin
      here := critical;
    end;

    rule "leave"
      here = critical
    ==>
    begin
      flag[p] := false;
      here := idle;
    end;

  end;
end;

startstate
begin
  for p: pid do
    at[p] := idle;
    flag[p] := false;
  end;
  turn := 1;
end;

invariant "mutual exclusion"
  forall p: pid do forall q: pid do at[p] = critical & at[q] = critical -> p = q end end;

cover "second waits for first"
  at[1] = critical & at[2] = waiting;

liveness "first may enter"
  at[1] = critical;
