/* Written by tools/to_promela.py from sliding_window_lossy.model. */
/* alive: the checker looks for deadlocks without claims */
/* none_twice: left out, since it depends on which step is taken */
/* in_order: left out, since it depends on which step is taken, or on more than tests inside a fixpoint */
/* none_made_up: left out, since it depends on which step is taken, or on more than tests inside a fixpoint */
/* any_loss: left out, since it depends on which step is taken */
/* fair_loss: left out, since it depends on which step is taken */
#define white 0
#define red 1
#define blue 2
#define none 0
#define given_red 1
#define given_blue 2
byte given = none;
byte window[2] = white;
byte base = 0;
byte filled = 0;
byte next_1 = 0;
byte item[2] = white;
byte number[2] = 0;
byte frames = 0;
byte wanted = 0;
byte answer[2] = 0;
byte answers = 0;
hidden int kept_1;
hidden int kept_2;
hidden int kept_3;

active proctype steps() {
  do
  /* give(white, 0) */
  :: d_step { filled == 0 -> window[0] = white; filled = 1; given = given }
  /* give(white, 1) */
  :: d_step { filled == 1 -> window[1] = white; filled = 2; given = given }
  /* give(red, 0) */
  :: d_step { filled == 0 && given == none -> window[0] = red; filled = 1; given = given_red }
  /* give(red, 1) */
  :: d_step { filled == 1 && given == none -> window[1] = red; filled = 2; given = given_red }
  /* give(blue, 0) */
  :: d_step { filled == 0 && given == given_red -> window[0] = blue; filled = 1; given = given_blue }
  /* give(blue, 1) */
  :: d_step { filled == 1 && given == given_red -> window[1] = blue; filled = 2; given = given_blue }
  /* send(0, 0) */
  :: d_step { next_1 == 0 && 0 < filled && frames == 0 -> item[0] = window[0]; number[0] = (base + 0) % 3; frames = 1; next_1 = 1 }
  /* send(0, 1) */
  :: d_step { next_1 == 0 && 0 < filled && frames == 1 -> item[1] = window[0]; number[1] = (base + 0) % 3; frames = 2; next_1 = 1 }
  /* send(1, 0) */
  :: d_step { next_1 == 1 && 1 < filled && frames == 0 -> item[0] = window[1]; number[0] = (base + 1) % 3; frames = 1; next_1 = 2 }
  /* send(1, 1) */
  :: d_step { next_1 == 1 && 1 < filled && frames == 1 -> item[1] = window[1]; number[1] = (base + 1) % 3; frames = 2; next_1 = 2 }
  /* timeout */
  :: d_step { next_1 > 0 -> next_1 = 0 }
  /* deliver(white, 0) */
  :: d_step { frames > 0 && item[0] == white && number[0] == wanted && answers == 0 -> kept_1 = (wanted + 1) % 3; item[0] = item[1]; item[1] = white; number[0] = number[1]; number[1] = 0; frames = frames - 1; wanted = (wanted + 1) % 3; answer[0] = kept_1; answers = 1 }
  /* deliver(white, 1) */
  :: d_step { frames > 0 && item[0] == white && number[0] == wanted && answers == 1 -> kept_1 = (wanted + 1) % 3; item[0] = item[1]; item[1] = white; number[0] = number[1]; number[1] = 0; frames = frames - 1; wanted = (wanted + 1) % 3; answer[1] = kept_1; answers = 2 }
  /* deliver(red, 0) */
  :: d_step { frames > 0 && item[0] == red && number[0] == wanted && answers == 0 -> kept_1 = (wanted + 1) % 3; item[0] = item[1]; item[1] = white; number[0] = number[1]; number[1] = 0; frames = frames - 1; wanted = (wanted + 1) % 3; answer[0] = kept_1; answers = 1 }
  /* deliver(red, 1) */
  :: d_step { frames > 0 && item[0] == red && number[0] == wanted && answers == 1 -> kept_1 = (wanted + 1) % 3; item[0] = item[1]; item[1] = white; number[0] = number[1]; number[1] = 0; frames = frames - 1; wanted = (wanted + 1) % 3; answer[1] = kept_1; answers = 2 }
  /* deliver(blue, 0) */
  :: d_step { frames > 0 && item[0] == blue && number[0] == wanted && answers == 0 -> kept_1 = (wanted + 1) % 3; item[0] = item[1]; item[1] = white; number[0] = number[1]; number[1] = 0; frames = frames - 1; wanted = (wanted + 1) % 3; answer[0] = kept_1; answers = 1 }
  /* deliver(blue, 1) */
  :: d_step { frames > 0 && item[0] == blue && number[0] == wanted && answers == 1 -> kept_1 = (wanted + 1) % 3; item[0] = item[1]; item[1] = white; number[0] = number[1]; number[1] = 0; frames = frames - 1; wanted = (wanted + 1) % 3; answer[1] = kept_1; answers = 2 }
  /* repeat(0) */
  :: d_step { frames > 0 && number[0] != wanted && answers == 0 -> item[0] = item[1]; item[1] = white; number[0] = number[1]; number[1] = 0; frames = frames - 1; answer[0] = wanted; answers = 1 }
  /* repeat(1) */
  :: d_step { frames > 0 && number[0] != wanted && answers == 1 -> item[0] = item[1]; item[1] = white; number[0] = number[1]; number[1] = 0; frames = frames - 1; answer[1] = wanted; answers = 2 }
  /* acknowledge */
  :: d_step { answers > 0 && ((answer[0] - base) % 3 + 3) % 3 <= filled && (filled - (((answer[0] - base) % 3 + 3) % 3) < 0 || filled - (((answer[0] - base) % 3 + 3) % 3) > 2) -> assert(false) }
  :: d_step { answers > 0 && ((answer[0] - base) % 3 + 3) % 3 <= filled && !(filled - (((answer[0] - base) % 3 + 3) % 3) < 0 || filled - (((answer[0] - base) % 3 + 3) % 3) > 2) -> kept_1 = (((answer[0] - base) % 3 + 3) % 3 == 0 -> window[1] : white); kept_2 = filled - (((answer[0] - base) % 3 + 3) % 3); kept_3 = (0 > next_1 - (((answer[0] - base) % 3 + 3) % 3) -> 0 : next_1 - (((answer[0] - base) % 3 + 3) % 3)); window[0] = (((answer[0] - base) % 3 + 3) % 3 == 0 -> window[0] : (((answer[0] - base) % 3 + 3) % 3 == 1 -> window[1] : white)); window[1] = kept_1; base = answer[0]; filled = kept_2; next_1 = kept_3; answer[0] = answer[1]; answer[1] = 0; answers = answers - 1 }
  /* lose_frame(0) */
  :: d_step { 0 < frames -> item[0] = item[1]; item[1] = white; number[0] = number[1]; number[1] = 0; frames = frames - 1 }
  /* lose_frame(1) */
  :: d_step { 1 < frames -> item[0] = item[0]; item[1] = white; number[0] = number[0]; number[1] = 0; frames = frames - 1 }
  /* lose_answer(0) */
  :: d_step { 0 < answers -> answer[0] = answer[1]; answer[1] = 0; answers = answers - 1 }
  /* lose_answer(1) */
  :: d_step { 1 < answers -> answer[0] = answer[0]; answer[1] = 0; answers = answers - 1 }
  od
}
ltl fits { [] (!(answers > 0) || ((answer[0] - base) % 3 + 3) % 3 <= filled) }
ltl never_two_frames { [] (!(frames == 2 && number[0] != number[1])) }
