-- Written by tools/to_murphi.py from german.model.
-- alive: by the option --deadlock-detection stuck
-- served: left out, since it depends on which step is taken
-- served_unless_busy: left out, since it depends on which step is taken

type
  Node: enum { n1, n2, n3 };
  State: enum { invalid, shared, exclusive };
  Request: enum { no_request, req_shared, req_exclusive };
  Reply: enum { no_reply, gnt_shared, gnt_exclusive, inv };

var
  cache: array [Node] of State;
  data: array [Node] of boolean;
  channel1: array [Node] of Request;
  channel2: array [Node] of Reply;
  granted_data: array [Node] of boolean;
  channel3: array [Node] of boolean;
  acked_data: array [Node] of boolean;
  to_invalidate: array [Node] of boolean;
  sharers: array [Node] of boolean;
  granted: boolean;
  command: Request;
  current: Node;
  memory: boolean;
  last: boolean;

ruleset i: Node do
rule "send_req_s"
    channel1[i] = no_request
    & cache[i] = invalid
  ==>
  begin
    channel1[i] := req_shared;
  end;
end;

ruleset i: Node do
rule "send_req_e"
    channel1[i] = no_request
    & cache[i] != exclusive
  ==>
  begin
    channel1[i] := req_exclusive;
  end;
end;

ruleset i: Node do
rule "recv_req"
    command = no_request
    & channel1[i] != no_request
  ==>
  begin
    command := channel1[i];
    current := i;
    channel1[i] := no_request;
    to_invalidate[n1] := sharers[n1];
    to_invalidate[n2] := sharers[n2];
    to_invalidate[n3] := sharers[n3];
  end;
end;

ruleset i: Node do
rule "send_inv"
    channel2[i] = no_reply
    & to_invalidate[i]
    & (command = req_exclusive | command = req_shared & granted)
  ==>
  begin
    channel2[i] := inv;
    to_invalidate[i] := false;
  end;
end;

ruleset i: Node do
rule "send_inv_ack"
    channel2[i] = inv
    & !channel3[i]
  ==>
  begin
    channel2[i] := no_reply;
    channel3[i] := true;
    acked_data[i] := cache[i] = exclusive & data[i];
    cache[i] := invalid;
    data[i] := false;
  end;
end;

ruleset i: Node do
rule "recv_inv_ack"
    channel3[i]
    & command != no_request
  ==>
  var kept_1: boolean;
  begin
    kept_1 := (granted ? acked_data[i] : memory);
    channel3[i] := false;
    acked_data[i] := false;
    sharers[i] := false;
    granted := false;
    memory := kept_1;
  end;
end;

ruleset i: Node do
rule "send_gnt_s"
    command = req_shared
    & current = i
    & channel2[i] = no_reply
    & !granted
  ==>
  begin
    channel2[i] := gnt_shared;
    granted_data[i] := memory;
    sharers[i] := true;
    command := no_request;
    current := n1;
  end;
end;

ruleset i: Node do
rule "send_gnt_e"
    command = req_exclusive
    & current = i
    & channel2[i] = no_reply
    & !granted
    & forall j: Node do !sharers[j] end
  ==>
  begin
    channel2[i] := gnt_exclusive;
    granted_data[i] := memory;
    sharers[i] := true;
    granted := true;
    command := no_request;
    current := n1;
  end;
end;

ruleset i: Node do
rule "recv_gnt_s"
    channel2[i] = gnt_shared
  ==>
  begin
    cache[i] := shared;
    data[i] := granted_data[i];
    channel2[i] := no_reply;
    granted_data[i] := false;
  end;
end;

ruleset i: Node do
rule "recv_gnt_e"
    channel2[i] = gnt_exclusive
  ==>
  begin
    cache[i] := exclusive;
    data[i] := granted_data[i];
    channel2[i] := no_reply;
    granted_data[i] := false;
  end;
end;

ruleset i: Node; d: boolean do
rule "store"
    cache[i] = exclusive
  ==>
  begin
    data[i] := d;
    last := d;
  end;
end;

startstate
begin
  for i: Node do cache[i] := invalid; end;
  for i: Node do data[i] := false; end;
  for i: Node do channel1[i] := no_request; end;
  for i: Node do channel2[i] := no_reply; end;
  for i: Node do granted_data[i] := false; end;
  for i: Node do channel3[i] := false; end;
  for i: Node do acked_data[i] := false; end;
  for i: Node do to_invalidate[i] := false; end;
  for i: Node do sharers[i] := false; end;
  granted := false;
  command := no_request;
  current := n1;
  memory := false;
  last := false;
end;

invariant "control"
  forall i: Node do forall j: Node do i != j & cache[i] = exclusive -> cache[j] = invalid end end;

invariant "data_is_last"
  (!granted -> memory = last)
  & forall i: Node do cache[i] != invalid -> data[i] = last end;
