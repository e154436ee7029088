-- Written by tools/to_murphi.py from sliding_window_lossy.model.
-- alive: by the option --deadlock-detection stuck
-- none_twice: left out, since it depends on which step is taken
-- in_order: left out, since it depends on which step is taken, or on more than tests inside a fixpoint
-- none_made_up: left out, since it depends on which step is taken, or on more than tests inside a fixpoint
-- any_loss: left out, since it depends on which step is taken
-- fair_loss: left out, since it depends on which step is taken

type
  Item: enum { white, red, blue };
  Given: enum { none, given_red, given_blue };
  Number: 0 .. 2;
  Place: 0 .. 1;
  Length: 0 .. 2;

var
  given: Given;
  window: array [Place] of Item;
  base: Number;
  filled: Length;
  next: Length;
  item: array [Place] of Item;
  number: array [Place] of Number;
  frames: Length;
  wanted: Number;
  answer: array [Place] of Number;
  answers: Length;

ruleset x: Item; k: Place do
rule "give"
    filled = k
    & (x = white | x = red & given = none | x = blue & given = given_red)
  ==>
  begin
    window[k] := x;
    filled := k + 1;
    given := (x = white ? given : (x = red ? given_red : given_blue));
  end;
end;

ruleset j: Place; k: Place do
rule "send"
    next = j
    & j < filled
    & frames = k
  ==>
  begin
    item[k] := window[j];
    number[k] := (base + j) % 3;
    frames := k + 1;
    next := j + 1;
  end;
end;

rule "timeout"
    next > 0
  ==>
  begin
    next := 0;
  end;

ruleset x: Item; k: Place do
rule "deliver"
    frames > 0
    & item[0] = x
    & number[0] = wanted
    & answers = k
  ==>
  var kept_1: Number;
  begin
    kept_1 := (wanted + 1) % 3;
    item[0] := item[1];
    item[1] := white;
    number[0] := number[1];
    number[1] := 0;
    frames := frames - 1;
    wanted := (wanted + 1) % 3;
    answer[k] := kept_1;
    answers := k + 1;
  end;
end;

ruleset k: Place do
rule "repeat"
    frames > 0
    & number[0] != wanted
    & answers = k
  ==>
  begin
    item[0] := item[1];
    item[1] := white;
    number[0] := number[1];
    number[1] := 0;
    frames := frames - 1;
    answer[k] := wanted;
    answers := k + 1;
  end;
end;

rule "acknowledge"
    answers > 0
    & ((answer[0] - base) % 3 + 3) % 3 <= filled
  ==>
  var kept_1: Item;
  var kept_2: Length;
  var kept_3: Length;
  begin
    kept_1 := (((answer[0] - base) % 3 + 3) % 3 = 0 ? window[1] : white);
    kept_2 := filled - (((answer[0] - base) % 3 + 3) % 3);
    kept_3 := (0 > next - (((answer[0] - base) % 3 + 3) % 3) ? 0 : next - (((answer[0] - base) % 3 + 3) % 3));
    window[0] := (((answer[0] - base) % 3 + 3) % 3 = 0 ? window[0] : (((answer[0] - base) % 3 + 3) % 3 = 1 ? window[1] : white));
    window[1] := kept_1;
    base := answer[0];
    filled := kept_2;
    next := kept_3;
    answer[0] := answer[1];
    answer[1] := 0;
    answers := answers - 1;
  end;

ruleset k: Place do
rule "lose_frame"
    k < frames
  ==>
  begin
    item[0] := (k = 0 ? item[1] : item[0]);
    item[1] := white;
    number[0] := (k = 0 ? number[1] : number[0]);
    number[1] := 0;
    frames := frames - 1;
  end;
end;

ruleset k: Place do
rule "lose_answer"
    k < answers
  ==>
  begin
    answer[0] := (k = 0 ? answer[1] : answer[0]);
    answer[1] := 0;
    answers := answers - 1;
  end;
end;

startstate
begin
  given := none;
  for k: Place do window[k] := white; end;
  base := 0;
  filled := 0;
  next := 0;
  for k: Place do item[k] := white; end;
  for k: Place do number[k] := 0; end;
  frames := 0;
  wanted := 0;
  for k: Place do answer[k] := 0; end;
  answers := 0;
end;

invariant "fits"
  answers > 0 -> ((answer[0] - base) % 3 + 3) % 3 <= filled;

cover "two_frames"
  frames = 2
  & number[0] != number[1];
