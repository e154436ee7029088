/* Written by tools/to_promela.py from german.model. */
/* alive: the checker looks for deadlocks without claims */
/* served: left out, since it depends on which step is taken */
/* served_unless_busy: left out, since it depends on which step is taken */
#define n1 0
#define n2 1
#define n3 2
#define invalid 0
#define shared 1
#define exclusive 2
#define no_request 0
#define req_shared 1
#define req_exclusive 2
#define no_reply 0
#define gnt_shared 1
#define gnt_exclusive 2
#define inv 3
byte cache[3] = invalid;
bool data[3] = false;
byte channel1[3] = no_request;
byte channel2[3] = no_reply;
bool granted_data[3] = false;
bool channel3[3] = false;
bool acked_data[3] = false;
bool to_invalidate[3] = false;
bool sharers[3] = false;
bool granted = false;
byte command = no_request;
byte current = n1;
bool memory = false;
bool last = false;
hidden int kept_1;

active proctype steps() {
  do
  /* send_req_s(n1) */
  :: d_step { channel1[0] == no_request && cache[0] == invalid -> channel1[0] = req_shared }
  /* send_req_s(n2) */
  :: d_step { channel1[1] == no_request && cache[1] == invalid -> channel1[1] = req_shared }
  /* send_req_s(n3) */
  :: d_step { channel1[2] == no_request && cache[2] == invalid -> channel1[2] = req_shared }
  /* send_req_e(n1) */
  :: d_step { channel1[0] == no_request && cache[0] != exclusive -> channel1[0] = req_exclusive }
  /* send_req_e(n2) */
  :: d_step { channel1[1] == no_request && cache[1] != exclusive -> channel1[1] = req_exclusive }
  /* send_req_e(n3) */
  :: d_step { channel1[2] == no_request && cache[2] != exclusive -> channel1[2] = req_exclusive }
  /* recv_req(n1) */
  :: d_step { command == no_request && channel1[0] != no_request -> command = channel1[0]; current = n1; channel1[0] = no_request; to_invalidate[0] = sharers[0]; to_invalidate[1] = sharers[1]; to_invalidate[2] = sharers[2] }
  /* recv_req(n2) */
  :: d_step { command == no_request && channel1[1] != no_request -> command = channel1[1]; current = n2; channel1[1] = no_request; to_invalidate[0] = sharers[0]; to_invalidate[1] = sharers[1]; to_invalidate[2] = sharers[2] }
  /* recv_req(n3) */
  :: d_step { command == no_request && channel1[2] != no_request -> command = channel1[2]; current = n3; channel1[2] = no_request; to_invalidate[0] = sharers[0]; to_invalidate[1] = sharers[1]; to_invalidate[2] = sharers[2] }
  /* send_inv(n1) */
  :: d_step { channel2[0] == no_reply && to_invalidate[0] && (command == req_exclusive || command == req_shared && granted) -> channel2[0] = inv; to_invalidate[0] = false }
  /* send_inv(n2) */
  :: d_step { channel2[1] == no_reply && to_invalidate[1] && (command == req_exclusive || command == req_shared && granted) -> channel2[1] = inv; to_invalidate[1] = false }
  /* send_inv(n3) */
  :: d_step { channel2[2] == no_reply && to_invalidate[2] && (command == req_exclusive || command == req_shared && granted) -> channel2[2] = inv; to_invalidate[2] = false }
  /* send_inv_ack(n1) */
  :: d_step { channel2[0] == inv && !channel3[0] -> channel2[0] = no_reply; channel3[0] = true; acked_data[0] = cache[0] == exclusive && data[0]; cache[0] = invalid; data[0] = false }
  /* send_inv_ack(n2) */
  :: d_step { channel2[1] == inv && !channel3[1] -> channel2[1] = no_reply; channel3[1] = true; acked_data[1] = cache[1] == exclusive && data[1]; cache[1] = invalid; data[1] = false }
  /* send_inv_ack(n3) */
  :: d_step { channel2[2] == inv && !channel3[2] -> channel2[2] = no_reply; channel3[2] = true; acked_data[2] = cache[2] == exclusive && data[2]; cache[2] = invalid; data[2] = false }
  /* recv_inv_ack(n1) */
  :: d_step { channel3[0] && command != no_request -> kept_1 = (granted -> acked_data[0] : memory); channel3[0] = false; acked_data[0] = false; sharers[0] = false; granted = false; memory = kept_1 }
  /* recv_inv_ack(n2) */
  :: d_step { channel3[1] && command != no_request -> kept_1 = (granted -> acked_data[1] : memory); channel3[1] = false; acked_data[1] = false; sharers[1] = false; granted = false; memory = kept_1 }
  /* recv_inv_ack(n3) */
  :: d_step { channel3[2] && command != no_request -> kept_1 = (granted -> acked_data[2] : memory); channel3[2] = false; acked_data[2] = false; sharers[2] = false; granted = false; memory = kept_1 }
  /* send_gnt_s(n1) */
  :: d_step { command == req_shared && current == n1 && channel2[0] == no_reply && !granted -> channel2[0] = gnt_shared; granted_data[0] = memory; sharers[0] = true; command = no_request; current = n1 }
  /* send_gnt_s(n2) */
  :: d_step { command == req_shared && current == n2 && channel2[1] == no_reply && !granted -> channel2[1] = gnt_shared; granted_data[1] = memory; sharers[1] = true; command = no_request; current = n1 }
  /* send_gnt_s(n3) */
  :: d_step { command == req_shared && current == n3 && channel2[2] == no_reply && !granted -> channel2[2] = gnt_shared; granted_data[2] = memory; sharers[2] = true; command = no_request; current = n1 }
  /* send_gnt_e(n1) */
  :: d_step { command == req_exclusive && current == n1 && channel2[0] == no_reply && !granted && !sharers[0] && !sharers[1] && !sharers[2] -> channel2[0] = gnt_exclusive; granted_data[0] = memory; sharers[0] = true; granted = true; command = no_request; current = n1 }
  /* send_gnt_e(n2) */
  :: d_step { command == req_exclusive && current == n2 && channel2[1] == no_reply && !granted && !sharers[0] && !sharers[1] && !sharers[2] -> channel2[1] = gnt_exclusive; granted_data[1] = memory; sharers[1] = true; granted = true; command = no_request; current = n1 }
  /* send_gnt_e(n3) */
  :: d_step { command == req_exclusive && current == n3 && channel2[2] == no_reply && !granted && !sharers[0] && !sharers[1] && !sharers[2] -> channel2[2] = gnt_exclusive; granted_data[2] = memory; sharers[2] = true; granted = true; command = no_request; current = n1 }
  /* recv_gnt_s(n1) */
  :: d_step { channel2[0] == gnt_shared -> cache[0] = shared; data[0] = granted_data[0]; channel2[0] = no_reply; granted_data[0] = false }
  /* recv_gnt_s(n2) */
  :: d_step { channel2[1] == gnt_shared -> cache[1] = shared; data[1] = granted_data[1]; channel2[1] = no_reply; granted_data[1] = false }
  /* recv_gnt_s(n3) */
  :: d_step { channel2[2] == gnt_shared -> cache[2] = shared; data[2] = granted_data[2]; channel2[2] = no_reply; granted_data[2] = false }
  /* recv_gnt_e(n1) */
  :: d_step { channel2[0] == gnt_exclusive -> cache[0] = exclusive; data[0] = granted_data[0]; channel2[0] = no_reply; granted_data[0] = false }
  /* recv_gnt_e(n2) */
  :: d_step { channel2[1] == gnt_exclusive -> cache[1] = exclusive; data[1] = granted_data[1]; channel2[1] = no_reply; granted_data[1] = false }
  /* recv_gnt_e(n3) */
  :: d_step { channel2[2] == gnt_exclusive -> cache[2] = exclusive; data[2] = granted_data[2]; channel2[2] = no_reply; granted_data[2] = false }
  /* store(n1, false) */
  :: d_step { cache[0] == exclusive -> data[0] = false; last = false }
  /* store(n1, true) */
  :: d_step { cache[0] == exclusive -> data[0] = true; last = true }
  /* store(n2, false) */
  :: d_step { cache[1] == exclusive -> data[1] = false; last = false }
  /* store(n2, true) */
  :: d_step { cache[1] == exclusive -> data[1] = true; last = true }
  /* store(n3, false) */
  :: d_step { cache[2] == exclusive -> data[2] = false; last = false }
  /* store(n3, true) */
  :: d_step { cache[2] == exclusive -> data[2] = true; last = true }
  od
}
ltl control { [] ((cache[0] != exclusive || cache[1] == invalid) && (cache[0] != exclusive || cache[2] == invalid) && (cache[1] != exclusive || cache[0] == invalid) && (cache[1] != exclusive || cache[2] == invalid) && (cache[2] != exclusive || cache[0] == invalid) && (cache[2] != exclusive || cache[1] == invalid)) }
ltl data_is_last { [] ((granted || memory == last) && (cache[0] == invalid || data[0] == last) && (cache[1] == invalid || data[1] == last) && (cache[2] == invalid || data[2] == last)) }
