-- Peterson's algorithm for n processes (Peterson 1981), as a filter of n - 1 levels; at each level the process that came last waits.
const
  N: 3;

type
  pid: scalarset(N);
  level: 0 .. N - 1;
  label: enum { L0, L1, L2, L3, L4 };

var
  P: array [pid] of label;       -- what a process does next
  Q: array [pid] of level;       -- at which level it tries to go on
  turn: array [level] of pid;    -- who came last to a level
  at: array [pid] of level;      -- its own count of levels

ruleset i: pid do

  rule "begins"
    P[i] = L0
  ==>
  begin
    at[i] := 1;
    P[i] := L1;
  end;

  rule "says its level"
    P[i] = L1
  ==>
  begin
    Q[i] := at[i];
    P[i] := L2;
  end;

  rule "comes last"
    P[i] = L2
  ==>
  begin
    turn[at[i]] := i;
    P[i] := L3;
  end;

  rule "goes on"
    P[i] = L3
  ==>
  begin
    if (forall j: pid do j != i -> Q[j] < at[i] end) | turn[at[i]] != i then
      if at[i] < N - 1 then
        at[i] := at[i] + 1;
        P[i] := L1;
      else
        undefine at[i];
        P[i] := L4;
      end;
    end;
  end;

  rule "leaves"
    P[i] = L4
  ==>
  begin
    Q[i] := 0;
    P[i] := L0;
  end;

end;

startstate
begin
  for i: pid do
    P[i] := L0;
    Q[i] := 0;
    undefine at[i];
  end;
  for k: level do
    undefine turn[k];
  end;
end;

invariant "only one is critical"
  !exists i: pid do exists j: pid do i != j & P[i] = L4 & P[j] = L4 end end;

invariant "a process that tries has a level"
  forall i: pid do !isundefined(at[i]) = (P[i] != L0 & P[i] != L4) end;
