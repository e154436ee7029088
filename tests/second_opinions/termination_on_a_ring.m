-- Written by tools/to_murphi.py from termination_on_a_ring.model.
-- alive: by the option --deadlock-detection stuck
-- detected: left out, since it is about runs
-- passive_ends: left out, since it is about runs
-- quiet: left out, since it is about runs

type
  Machine: 0 .. 3;

var
  active: array [Machine] of boolean;
  black: array [Machine] of boolean;
  at: Machine;
  white: boolean;

ruleset i: Machine; j: Machine do
rule "send"
    active[i]
    & i != j
  ==>
  begin
    active[j] := true;
    black[i] := black[i] | i < j;
  end;
end;

ruleset i: Machine do
rule "rest"
    active[i]
  ==>
  begin
    active[i] := false;
  end;
end;

ruleset i: Machine do
rule "pass"
    at = i
    & i > 0
    & !active[i]
  ==>
  begin
    at := i - 1;
    white := white & !black[i];
    black[i] := false;
  end;
end;

rule "again"
    at = 0
    & !active[0]
    & !(at = 0 & white & !active[0] & !black[0])
  ==>
  begin
    at := 3;
    white := true;
    black[0] := false;
  end;

startstate
begin
  for i: Machine do active[i] := true; end;
  for i: Machine do black[i] := false; end;
  at := 0;
  white := false;
end;

invariant "sound"
  at = 0 & white & !active[0] & !black[0] -> forall i: Machine do !active[i] end;
