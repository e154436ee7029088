-- MSI cache coherence of one line with a directory (as in Sorin, Hill and Wood, "A Primer on Memory Consistency and Cache Coherence", much
-- simplified): the directory serves one request at a time, recalls the copies that are in the way, and grants the line when all have answered.
const
  CACHES: 2;

type
  cache: 1 .. CACHES;
  value: boolean;
  request: enum { idle, get_s, get_m };
  order_kind: enum { none, recall, data_s, data_m };
  order: record
    what: order_kind;
    value: value;
  end;
  answer: record
    full, was_modified: boolean;
    value: value;
  end;
  line: record
    state: enum { invalid, shared, modified, to_shared, to_modified };
    value: value;
  end;

var
  lines: array [cache] of line;
  requests: array [cache] of request;
  orders: array [cache] of order;
  answers: array [cache] of answer;
  holds: array [cache] of boolean;
  busy, writes, dirty: boolean;   -- a request is served; it is a write; a modified copy was granted
  wanting: cache;                 -- whose request is served
  waits: 0 .. CACHES;             -- for how many answers
  memory, latest: value;

procedure send(c: cache; what: order_kind; carried: value);
begin
  assert orders[c].what = none "no order is overwritten";
  orders[c].what := what;
  orders[c].value := carried;
end;

procedure lose(var l: line);
begin
  if l.state != shared & l.state != modified then
    return;
  end;
  clear l;
end;

function others_hold(c: cache): boolean;
begin
  for d: cache do
    if d != c & holds[d] then
      return true;
    end;
  end;
  return false;
end;

function in_the_way(c: cache): boolean;
begin
  return (writes | dirty) & others_hold(c);
end;

ruleset c: cache do

  rule "read"
    lines[c].state = invalid & requests[c] = idle
  ==>
  begin
    lines[c].state := to_shared;
    requests[c] := get_s;
  end;

  rule "write"
    (lines[c].state = invalid | lines[c].state = shared) & requests[c] = idle
  ==>
  begin
    clear lines[c].value;
    lines[c].state := to_modified;
    requests[c] := get_m;
  end;

  ruleset v: value do
    rule "store"
      lines[c].state = modified
    ==>
    begin
      lines[c].value := v;
      latest := v;
    end;
  end;

  rule "get data"
    orders[c].what = data_s | orders[c].what = data_m
  ==>
  begin
    lines[c].state := orders[c].what = data_s ? shared : modified;
    lines[c].value := orders[c].value;
    clear orders[c];
  end;

  rule "be recalled"
    orders[c].what = recall & !answers[c].full
  ==>
  begin
    alias mine: lines[c]; reply: answers[c] do
      reply.full := true;
      reply.was_modified := mine.state = modified;
      reply.value := mine.value;
      lose(mine);
    end;
    clear orders[c];
  end;

  rule "serve"
    !busy & requests[c] != idle
  ==>
  begin
    busy := true;
    wanting := c;
    writes := requests[c] = get_m;
    holds[c] := false;
    requests[c] := idle;
  end;

  rule "recall"
    busy & c != wanting & holds[c] & in_the_way(wanting) & orders[c].what = none
  ==>
  begin
    send(c, recall, false);
    holds[c] := false;
    waits := waits + 1;
  end;

  rule "have answer"
    busy & answers[c].full
  ==>
  begin
    if answers[c].was_modified then
      memory := answers[c].value;
    end;
    dirty := false;
    waits := waits - 1;
    clear answers[c];
  end;

end;

rule "grant"
  busy & waits = 0 & !in_the_way(wanting) & orders[wanting].what = none
==>
begin
  send(wanting, writes ? data_m : data_s, memory);
  holds[wanting] := true;
  dirty := writes;
  busy := false;
  writes := false;
  clear wanting;
end;

startstate
begin
  clear lines;
  clear requests;
  clear orders;
  clear answers;
  clear holds;
  clear busy;
  clear writes;
  clear dirty;
  clear wanting;
  clear waits;
  clear memory;
  clear latest;
end;

invariant "one writer"
  forall c: cache do forall d: cache do
    c != d & lines[c].state = modified -> lines[d].state != modified & lines[d].state != shared
  end end;

invariant "the latest value is read"
  forall c: cache do lines[c].state = shared | lines[c].state = modified -> lines[c].value = latest end;

liveness "the first cache may write"
  lines[1].state = modified;
