-- Two-phase commit (Gray 1978) with three participants, where the coordinator may crash, and a participant that asks in vain aborts.
const
  participants: 3;

type
  participant: 1 .. participants;
  vote: enum { none, yes, no };
  mode: enum { working, prepared, committed, aborted };
  party: record
    mode: mode;
    voted: boolean;
  end;

var
  parties: array [participant] of party;
  votes: array [participant] of vote;
  decision: vote;
  crashed: boolean;

ruleset i: participant; accepts: boolean do
  rule "vote"
    parties[i].mode = working & !parties[i].voted
  ==>
  begin
    alias me: parties[i] do
      me.voted := true;
      if accepts then
        me.mode := prepared;
        votes[i] := yes;
      else
        me.mode := aborted;
        votes[i] := no;
      end;
    end;
  end;
end;

rule "decide"
  !crashed & decision = none & forall i: participant do votes[i] != none end
==>
begin
  decision := yes;
  for i: participant do
    if votes[i] = no then decision := no; end;
    clear votes[i];
  end;
end;

rule "give up"
  !crashed & decision = none
==>
  decision := no;
end;

ruleset i: participant do
  rule "learn"
    !crashed & parties[i].mode = prepared & decision != none
  ==>
  begin
    switch decision
      case yes: parties[i].mode := committed;
      case no: parties[i].mode := aborted;
      else error "no decision";
    end;
  end;
end;

rule "crash"
  !crashed
==>
begin
  crashed := true;
end;

startstate "asking"
begin
  clear parties;
  clear votes;
  decision := none;
  crashed := false;
end;

invariant "agreement"
  forall i: participant do forall j: participant do
    parties[i].mode = committed -> parties[j].mode != aborted
  end end;
