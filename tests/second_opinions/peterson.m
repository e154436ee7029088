-- Written by tools/to_murphi.py from peterson.model.
-- alive: by the option --deadlock-detection stuck
-- enters: left out, since it is about runs
-- entry: left out, since it depends on which step is taken, or on more than tests inside a fixpoint
-- tries: left out, since it depends on which step is taken, or on more than tests inside a fixpoint
-- passed_once: left out, since it depends on which step is taken, or on more than tests inside a fixpoint
-- enters_fair: left out, since it depends on which step is taken, or on more than tests inside a fixpoint

type
  Place: enum { noncritical, flagged, waiting, critical };

var
  p: Place;
  q: Place;
  turn: boolean;

rule "flag1"
    p = noncritical
  ==>
  begin
    p := flagged;
  end;

rule "wait1"
    p = flagged
  ==>
  begin
    p := waiting;
    turn := true;
  end;

rule "enter1"
    p = waiting
    & (q = noncritical | !turn)
  ==>
  begin
    p := critical;
  end;

rule "leave1"
    p = critical
  ==>
  begin
    p := noncritical;
  end;

rule "flag2"
    q = noncritical
  ==>
  begin
    q := flagged;
  end;

rule "wait2"
    q = flagged
  ==>
  begin
    q := waiting;
    turn := false;
  end;

rule "enter2"
    q = waiting
    & (p = noncritical | turn)
  ==>
  begin
    q := critical;
  end;

rule "leave2"
    q = critical
  ==>
  begin
    q := noncritical;
  end;

startstate
begin
  p := noncritical;
  q := noncritical;
  turn := false;
end;

invariant "safe"
  !(p = critical & q = critical);
