-- Nothing in particular: bodies whose assignments read what others wrote, at indices that may be equal.
type
  slot: 0 .. 2;
  item: enum { none, red };
  entry: record
    what: item;
    age: 0 .. 1;
  end;

var
  shelf: array [slot] of entry;
  hand: entry;
  top: slot;
  last: array [boolean] of slot;

ruleset i: slot; j: slot do

  rule "swap"
    i != j & top > 0
  ==>
  var
    kept: entry;
  begin
    kept := shelf[i];
    shelf[i] := shelf[j];
    shelf[j] := kept;
    last[i < j] := i;
  end;

  rule "move to the top"
    shelf[i].what != none & shelf[j].age >= shelf[i].age
  ==>
  begin
    alias goal: shelf[top]; from: shelf[i] do
      goal.what := from.what;
      from.age := (goal.age + from.age) % 2;
      if i != top then
        clear from;
      elsif j = top then
        top := j;
      else
        top := (top + 1) % 3;
      end;
    end;
    shelf[top].age := j < 1 ? j + 1 : 0;
  end;

end;

rule "rotate"
  !isundefined(hand.what)
==>
var
  first: entry;
begin
  first := shelf[0];
  for k := 0 to 1 do
    shelf[k] := shelf[k + 1];
  end;
  shelf[2] := hand;
  hand := first;
  last[true] := last[false];
end;

ruleset c: item do
  rule "take"
    isundefined(hand.what) | hand.age = 1
  ==>
  begin
    switch c
      case none: undefine hand;
      case red:
        hand.what := c;
        hand.age := shelf[top].age;
        for k: slot do
          if shelf[k].what = c & k <= top then
            top := k;
            shelf[k].what := none;
          end;
        end;
      else error "no item";
    end;
  end;
end;

startstate
begin
  clear shelf;
  shelf[1].what := red;
  top := 1;
  for b: boolean do
    last[b] := b ? 2 : 0;
  end;
end;

invariant "an age is of something"
  isundefined(hand.what) = isundefined(hand.age);

cover "three of a kind"
  forall k: slot do shelf[k].what = red end;

liveness "empty again"
  shelf[0].what = none;
