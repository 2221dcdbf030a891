"""Larger designs of `bench/mchyper`: each in a form that leaks (LEAK = 1) and in a mended one (LEAK = 0).

A design is a name, its Verilog, parameters, and formulas by their names, as `himarelou formula` takes them. The name
is that of the module, with what may stand behind a `-`. Without a start value a register begins with either one; `rst`
is there for those.
"""


def same(names, runs="pq"):
    """equality of each of the names in the runs: `same("go d[1:0]")`"""
    pairs = zip(runs, runs[1:])
    return "(" + " & ".join(f"{name}_{a} = {name}_{b}" for a, b in pairs for name in names.split()) + ")"


def pair(given, then):
    """two runs: as long as they agree in what is given they agree in the rest"""
    return f"forall p. forall q. G {same(given)} -> G {same(then)}"


def assumed(given, always, then):
    """as `pair`, where also something holds in each cycle"""
    return f"forall p. forall q. G ({same(given)} & {always}) -> G {same(then)}"


def reset(given, then):
    """as `pair`, from a reset on"""
    return f"forall p. forall q. rst_p & G {same('rst ' + given)} -> G (rst_p | {same(then)})"


FIFO = """
// Four places of WIDE bits. What is stored is secret, how many are stored is not.
module fifo #(parameter LEAK = 0, parameter WIDE = 2) (input clk, input rst, input push, input pop,
    input [WIDE - 1:0] din, output [WIDE - 1:0] dout, output empty, output full, output reg [2:0] many);
  reg [4 * WIDE - 1:0] store;
  reg [1:0] head, tail;
  assign empty = many == 0;
  assign full = many == 4;
  // leaks: shows what lies in an empty queue, and does not store a second zero in a row
  wire [1:0] newest = tail - 2'd1;
  wire [WIDE - 1:0] first = store[WIDE * head +: WIDE];
  wire again = LEAK && !empty && din == 0 && store[WIDE * newest +: WIDE] == 0;
  assign dout = LEAK || !empty ? first : 0;
  wire puts = push & ~full & ~again, takes = pop & ~empty;
  always @(posedge clk) begin
    if (puts) store[WIDE * tail +: WIDE] <= din;
    if (rst) begin head <= 0; tail <= 0; many <= 0; end
    else begin
      tail <= tail + puts;
      head <= head + takes;
      many <= many + puts - takes;
    end
  end
endmodule"""

UART = """
// Sends a byte: a start bit, eight bits, a stop bit, each for five cycles. The byte is secret, `busy` is public.
module uart #(parameter LEAK = 0) (input clk, input start, input [7:0] data, output reg busy, output txd,
    output reg [3:0] place);
  reg [2:0] baud;
  reg [9:0] frame;
  initial begin busy = 0; place = 0; baud = 0; frame = 10'h3ff; end
  // leaks: ends where only ones are left
  wire last = LEAK ? place == 9 || &frame : place == 9;
  assign txd = frame[0];
  always @(posedge clk)
    if (!busy) begin
      if (start) begin busy <= 1; frame <= {1'b1, data, 1'b0}; place <= 0; baud <= 0; end
    end else if (baud != 4) baud <= baud + 1;
    else begin
      baud <= 0;
      place <= place + 1;
      frame <= {1'b1, frame[9:1]};
      if (last) busy <= 0;
    end
endmodule"""

CACHE = """
// A direct-mapped cache of bits: two clients, an open one (`who` is 0) and a secret one with its own address.
module cache #(parameter LEAK = 0) (input clk, input req, input who, input [2:0] addr, input [2:0] secret,
    input fill, output ready, output hit, output value, output reg [1:0] left);
  reg [3:0] valid, data;
  reg [7:0] tag;
  reg asked, asker;
  reg [2:0] at;
  initial begin valid = 0; data = 0; tag = 0; asked = 0; asker = 0; at = 0; left = 0; end
  // leaks: all lines are shared; else each client has two of the four
  wire [1:0] line = LEAK ? at[1:0] : {asker, at[0]};
  wire found = valid[line] && tag[2 * line +: 2] == at[2:1];
  assign ready = asked && !asker && (left == 1 || (left == 2 && found));
  assign hit = ready && found;
  assign value = hit & data[line];
  always @(posedge clk)
    if (!asked) begin
      if (req) begin asked <= 1; asker <= who; at <= who ? secret : addr; left <= 2; end
    end else if (left == 1 || (found && !asker)) begin
      asked <= 0; left <= 0;
      valid[line] <= 1; tag[2 * line +: 2] <= at[2:1];
      if (!found) data[line] <= asker ? secret[0] : fill;
    end else left <= left - 1;
endmodule"""

MULT = """
// Multiplies four bits by four, a bit of `b` in each cycle. The factors are secret, when it is done is not.
module mult #(parameter LEAK = 0, parameter BITS = 4) (input clk, input start, input [BITS - 1:0] a,
    input [BITS - 1:0] b, output reg busy, output reg done, output [2 * BITS - 1:0] product, output reg [3:0] steps);
  reg [2 * BITS - 1:0] sum, addend;
  reg [BITS - 1:0] rest;
  initial begin busy = 0; done = 0; steps = 0; sum = 0; addend = 0; rest = 0; end
  assign product = done ? sum : 0;
  // leaks: ends where no bit is left
  wire last = LEAK ? rest[BITS - 1:1] == 0 : steps == BITS - 1;
  always @(posedge clk) begin
    done <= busy & last;
    if (!busy) begin
      if (start) begin busy <= 1; steps <= 0; sum <= 0; addend <= a; rest <= b; end
    end else begin
      if (rest[0]) sum <= sum + addend;
      addend <= addend << 1;
      rest <= rest >> 1;
      steps <= steps + 1;
      if (last) busy <= 0;
    end
  end
endmodule"""

SPN = """
// Four rounds of a cipher of eight bits: key, two S-boxes, a permutation. Key and text are secret until `done`.
module spn #(parameter LEAK = 0) (input clk, input load, input [7:0] key, input start, input [7:0] text,
    output reg busy, output reg done, output [7:0] cipher, output reg [2:0] round);
  reg [7:0] kept, state;
  initial begin busy = 0; done = 0; round = 0; kept = 0; state = 0; end
  function [3:0] sbox(input [3:0] x);
    case (x)
      0: sbox = 12; 1: sbox = 5; 2: sbox = 6; 3: sbox = 11; 4: sbox = 9; 5: sbox = 0; 6: sbox = 10; 7: sbox = 13;
      8: sbox = 3; 9: sbox = 14; 10: sbox = 15; 11: sbox = 8; 12: sbox = 4; 13: sbox = 7; 14: sbox = 1;
      default: sbox = 2;
    endcase
  endfunction
  wire [7:0] mixed = state ^ kept;
  wire [7:0] put = {sbox(mixed[7:4]), sbox(mixed[3:0])};
  wire [7:0] moved = {put[7], put[3], put[6], put[2], put[5], put[1], put[4], put[0]};
  assign cipher = done ? state : 8'd0;
  // leaks: a key with a zero nibble saves two rounds
  wire weak = LEAK && kept[3:0] == 0;
  wire last = round == 3 || (weak && round == 1);
  always @(posedge clk) begin
    done <= busy & last;
    if (!busy) begin
      if (load) kept <= key;
      if (start) begin busy <= 1; round <= 0; state <= text; end
    end else begin
      state <= moved;
      kept <= {kept[6:0], kept[7]};
      round <= round + 1;
      if (last) busy <= 0;
    end
  end
endmodule"""

TRIES = """
// A lock of three digits of two bits. After two wrong entries it is dead. The code is secret, the lamp is public.
module tries #(parameter LEAK = 0) (input clk, input rst, input press, input [1:0] digit,
    output busy, output accept, output reg open, output dead, output reg [1:0] failed);
  localparam ENTER = 0, COMPARE = 1, DECIDE = 2, WAIT = 3;
  (* anyconst *) reg [5:0] code;
  reg [5:0] entry;
  reg [1:0] state, place;
  reg [2:0] timer;
  reg wrong;
  wire differs = entry[1:0] != code[2 * place +: 2];
  assign accept = state == DECIDE && !wrong;
  assign busy = state != ENTER;
  assign dead = failed == 2;
  always @(posedge clk)
    if (rst) begin state <= ENTER; entry <= 0; place <= 0; failed <= 0; timer <= 0; wrong <= 0; open <= 0; end
    else case (state)
      ENTER: if (press & ~dead) begin
        entry <= {digit, entry[5:2]};
        place <= place == 2 ? 0 : place + 1;
        wrong <= 0;
        if (place == 2) state <= COMPARE;
      end
      COMPARE: begin   // leaks: the first wrong digit ends it
        entry <= {entry[1:0], entry[5:2]};
        wrong <= wrong | differs;
        place <= place == 2 ? 0 : place + 1;
        if (place == 2 || (LEAK && differs)) begin state <= DECIDE; place <= 0; end
      end
      DECIDE: begin
        open <= accept;
        failed <= accept ? 0 : failed + 1;
        timer <= accept ? 6 : 1;
        state <= WAIT;
      end
      WAIT: begin
        timer <= timer - 1;
        if (timer == 0) begin state <= ENTER; open <= 0; end
      end
    endcase
endmodule"""

ROBIN = """
// A bus of four clients. Client 0 is open to all, the requests of the others are secret.
module robin #(parameter LEAK = 0) (input clk, input [3:0] req, output reg [3:0] gnt, output reg [1:0] turn);
  reg [1:0] age;
  initial begin gnt = 0; turn = 0; age = 0; end
  wire [1:0] b = turn + 2'd1, c = turn + 2'd2, d = turn + 2'd3;
  // leaks: who does not ask is passed over; else each has its turn for two cycles
  wire [1:0] next = req[b] ? b : req[c] ? c : req[d] ? d : turn;
  always @(posedge clk)
    if (LEAK) begin
      age <= gnt[turn] & req[turn] ? age + 1 : 0;
      if (~req[turn] | age == 2) begin turn <= next; gnt <= req == 0 ? 0 : 4'd1 << next; age <= 0; end
      else gnt <= 4'd1 << turn;
    end else begin
      age <= {1'b0, ~age[0]};
      if (age[0]) turn <= turn + 1;
      gnt <= req & (4'd1 << turn);
    end
endmodule"""

MEMORY = """
// A memory of four bits behind a key: a read waits. The key is secret.
module memory #(parameter LEAK = 0) (input clk, input rst, input set, input [2:0] key, input req, input write,
    input [1:0] addr, input din, output ready, output value, output reg [2:0] left);
  reg [3:0] cells;
  reg [2:0] kept;
  reg [1:0] at;
  reg asked;
  assign ready = asked && left == 0;
  assign value = ready & cells[at];
  always @(posedge clk)
    if (rst) begin cells <= 0; kept <= 0; at <= 0; asked <= 0; left <= 0; end
    else begin
      if (set) kept <= key;
      if (!asked) begin
        if (req) begin
          asked <= 1; at <= addr;
          left <= LEAK ? {1'b0, kept[1:0] ^ addr} : 3'd4;   // leaks: waits by key and address
          if (write) cells[addr] <= din;
        end
      end else if (left == 0) asked <= 0;
      else left <= left - 1;
    end
endmodule"""

TRAFFIC = """
// Lights of a road and a side road. That a car waits is public; `alarm` lets a secret transport through.
module traffic #(parameter LEAK = 0) (input clk, input car, input alarm, output road, output side, output gate,
    output reg [1:0] light);
  localparam ROAD = 0, CLEAR = 1, SIDE = 2, BACK = 3;
  reg [2:0] timer;
  reg waits, held;
  reg [1:0] through;
  initial begin light = ROAD; timer = 0; waits = 0; held = 0; through = 0; end
  assign road = light == ROAD;
  assign side = light == SIDE && (LEAK || !held);
  assign gate = held & road;
  always @(posedge clk) begin
    waits <= (waits | car) & light != SIDE;
    held <= through != 0;
    through <= alarm ? 3 : through == 0 ? 0 : through - 1;
    timer <= timer + 1;
    case (light)
      // leaks: an alarm holds the road green
      ROAD: if (waits && timer >= 5 && !(LEAK && through != 0)) begin light <= CLEAR; timer <= 0; end
      CLEAR: if (timer == 1) begin light <= SIDE; timer <= 0; end
      SIDE: if (timer == 4) begin light <= BACK; timer <= 0; end
      BACK: if (timer == 1) begin light <= ROAD; timer <= 0; end
    endcase
    if (light == ROAD && timer == 7) timer <= 7;
  end
endmodule"""

SHAKE = """
// A handshake of four phases that takes a secret word. When it is answered is public.
module shake #(parameter LEAK = 0) (input clk, input rst, input req, input [3:0] word, output reg ack,
    output reg took, output [3:0] total);
  reg [3:0] kept, sum;
  reg [1:0] state, left;
  localparam IDLE = 0, WORK = 1, ANSWER = 2;
  assign total = ack ? sum : 4'd0;
  always @(posedge clk)
    if (rst) begin state <= IDLE; ack <= 0; took <= 0; left <= 0; sum <= 0; end
    else case (state)
      IDLE: if (req) begin
        kept <= word; took <= 1; state <= WORK;
        left <= LEAK ? word[1:0] : 2'd3;   // leaks: works as long as the word says
      end
      WORK: begin
        took <= 0;
        left <= left - 1;
        if (left == 0) begin sum <= sum + kept; ack <= 1; state <= ANSWER; end
      end
      ANSWER: if (!req) begin ack <= 0; state <= IDLE; end
      default: state <= IDLE;
    endcase
endmodule"""

DISPATCH = """
// Gives jobs to two queues by an LFSR. Which job is large is secret, where each goes is public.
module dispatch #(parameter LEAK = 0) (input clk, input job, input large, input done0, input done1,
    output sent0, output sent1, output stuck, output zero, output overrun);
  reg [6:0] lfsr;
  reg [2:0] many0, many1, load0, load1;
  initial begin lfsr = 1; many0 = 0; many1 = 0; load0 = 0; load1 = 0; end
  // leaks: a large job stirs the LFSR
  wire fed = lfsr[6] ^ lfsr[5] ^ (LEAK & large & job);
  assign sent0 = job & lfsr[0] & many0 != 5;
  assign sent1 = job & ~lfsr[0] & many1 != 5;
  assign stuck = job & ~sent0 & ~sent1;
  assign zero = lfsr == 0;
  assign overrun = many0 > 5 | many1 > 5 | load0 > many0 | load1 > many1;
  wire ends0 = done0 & many0 != 0, ends1 = done1 & many1 != 0;
  always @(posedge clk) begin
    lfsr <= {lfsr[5:0], fed};
    many0 <= many0 + sent0 - ends0;
    many1 <= many1 + sent1 - ends1;
    load0 <= load0 + (sent0 & large) - (ends0 & load0 != 0);
    load1 <= load1 + (sent1 & large) - (ends1 & load1 != 0);
  end
endmodule"""

BANK = """
// Four registers of a processor. In secure mode secrets are written; a way back to open mode wipes them first.
module bank #(parameter LEAK = 0) (input clk, input rst, input enter, input leave, input write, input [1:0] at,
    input [1:0] word, input [1:0] secret, output [1:0] read, output safe, output wipes);
  localparam OPEN = 0, SECURE = 1, WIPE = 2;
  reg [7:0] store;
  reg [1:0] mode, place;
  assign safe = mode == SECURE;
  assign wipes = mode == WIPE;
  assign read = mode == OPEN ? store[2 * at +: 2] : 2'd0;
  always @(posedge clk)
    if (rst) begin mode <= WIPE; place <= 0; end
    else case (mode)
      OPEN: begin
        if (write) store[2 * at +: 2] <= word;
        if (enter) mode <= SECURE;
      end
      SECURE: begin
        if (write) store[2 * at +: 2] <= secret;
        if (leave) begin mode <= WIPE; place <= 0; end
      end
      default: begin   // leaks: forgets the last register
        store[2 * place +: 2] <= 0;
        place <= place + 1;
        if (place == (LEAK ? 2 : 3)) mode <= OPEN;
      end
    endcase
endmodule"""

DMA = """
// Two channels move words over one bus. The length of channel 1 is secret, what channel 0 sees is public.
module dma #(parameter LEAK = 0) (input clk, input go0, input [2:0] length0, input go1, input [2:0] length1,
    output busy0, output move0, output move1, output reg [2:0] left0);
  reg [2:0] left1;
  reg turn;
  reg [4:0] moved;
  initial begin left0 = 0; left1 = 0; turn = 0; moved = 0; end
  assign busy0 = left0 != 0;
  wire busy1 = left1 != 0;
  // leaks: channel 1 goes first; else they take turns, used or not
  assign move1 = LEAK ? busy1 : turn & busy1;
  assign move0 = LEAK ? busy0 & ~busy1 : ~turn & busy0;
  always @(posedge clk) begin
    turn <= ~turn;
    moved <= moved + (move0 | move1);
    left0 <= busy0 ? left0 - move0 : go0 ? length0 : 0;
    left1 <= busy1 ? left1 - move1 : go1 ? length1 : 0;
  end
endmodule"""

PIPE = """
// Three stages. An operation is an addition or a division, which stalls. The operands are secret.
module pipe #(parameter LEAK = 0) (input clk, input issue, input divide, input [2:0] x, input [2:0] y,
    output stall, output reg retire, output [2:0] result, output reg [2:0] left);
  reg full, slow;
  reg [2:0] a, b, sum;
  initial begin full = 0; slow = 0; retire = 0; a = 0; b = 0; sum = 0; left = 0; end
  assign stall = full & slow & left != 0;
  assign result = retire ? sum : 3'd0;
  always @(posedge clk) begin
    retire <= full & ~stall;
    if (stall) begin
      left <= left - 1;
      a <= a >= b ? a - b : a;
    end else begin
      full <= issue; slow <= divide;
      a <= x; b <= y;
      // leaks: a division by one is short
      left <= !(issue & divide) ? 0 : LEAK && y == 1 ? 1 : 5;
      sum <= slow ? a : a + b;
    end
  end
endmodule"""

ONE_GRANT = " & ".join(f"!(gnt[{i}]_p = 1 & gnt[{j}]_p = 1)" for i in range(4) for j in range(i))

REGISTERS = """
// A file of bytes, each with who wrote it last. What the second writes is secret, and a read of it gives 0.
module registers #(parameter LEAK = 0, parameter BITS = 4) (input clk, input enable, input who, input [BITS - 1:0] to,
    input [BITS - 1:0] from, input [7:0] data, input [7:0] hidden, output reg [7:0] out);
  reg [(8 << BITS) - 1:0] store = 0;
  reg [(1 << BITS) - 1:0] owner = 0;
  initial out = 0;
  always @(posedge clk) begin
    if (enable) begin
      store[8 * to +: 8] <= who ? hidden : data;
      owner[to] <= who;
    end
    out <= owner[from] && !LEAK ? 0 : store[8 * from +: 8];
  end
endmodule"""

CORE = """
// A processor with registers of 16 bits. What is loaded is secret, how long a step takes is not.
module core #(parameter LEAK = 0, parameter BITS = 4) (input clk, input [2:0] code, input [BITS - 1:0] to,
    input [BITS - 1:0] left, input [BITS - 1:0] right, input [15:0] word, output ready, output reg [15:0] shown);
  reg [(16 << BITS) - 1:0] file = 0;
  reg [15:0] factor = 0, rest = 0, sum = 0;
  reg [4:0] more = 0;
  reg [BITS - 1:0] target = 0;
  initial shown = 0;
  wire [15:0] one = file[16 * left +: 16], other = file[16 * right +: 16];
  assign ready = more == 0;
  // leaks: a product ends where no bit of its factor is left
  wire last = more == 1 || LEAK && rest[15:1] == 0;
  wire [15:0] next = rest[0] ? sum + factor : sum;
  always @(posedge clk)
    if (!ready) begin
      sum <= next;
      factor <= factor << 1;
      rest <= rest >> 1;
      more <= last ? 0 : more - 1;
      if (last) file[16 * target +: 16] <= next;
    end else case (code)
      0: file[16 * to +: 16] <= word;
      1: file[16 * to +: 16] <= one + other;
      2: file[16 * to +: 16] <= one ^ other;
      3: begin factor <= one; rest <= other; sum <= 0; more <= 16; target <= to; end
      4: shown <= one;
      default: ;
    endcase
endmodule"""

DESIGNS = [
    ("fifo", FIFO, {}, {
        "timing": reset("push pop", "empty full"),
        "data": reset("push pop din[1:0]", "dout[1:0]"),
        "bounded": "forall p. rst_p -> X G !(many[2:0]_p = 5 | many[2:0]_p = 6 | many[2:0]_p = 7)",
    }),
    ("fifo-wide", FIFO, {"WIDE": 6}, {
        "data": reset("push pop din[5:0]", "dout[5:0]"),
    }),
    ("uart", UART, {}, {
        "timing": pair("start", "busy"),
        "frame": "forall p. G (busy_p = 0 -> txd_p = 1)",
        "data": pair("start data[7:0]", "txd busy"),
        "bounded": "forall p. G (busy_p = 1 -> place[3:0]_p != 10 & !(place[3]_p = 1 & place[2]_p = 1))",
    }),
    ("cache", CACHE, {}, {
        "timing": pair("req who addr[2:0] fill", "ready hit"),
        "alone": assumed("req who addr[2:0] fill", "!who_p", "ready hit value"),
        "bounded": "forall p. G (left[1:0]_p != 3)",
    }),
    ("mult", MULT, {}, {
        "timing": pair("start", "done"),
        "function": pair("start a[3:0] b[3:0]", "done product[7:0]"),
        "commutes": "forall p. forall q. G (start_p = start_q & a[3:0]_p = b[3:0]_q & b[3:0]_p = a[3:0]_q) -> "
                    "G product[7:0]_p = product[7:0]_q",
    }),
    ("mult-wide", MULT, {"BITS": 8}, {
        "timing": pair("start", "done"),
        "function": pair("start a[7:0] b[7:0]", "done product[15:0]"),
        "overlap": "forall p. G !(busy_p & done_p)",
    }),
    ("spn", SPN, {}, {
        "timing": pair("load start", "busy done"),
        "keyed": pair("load start text[7:0]", "cipher[7:0]"),
        "function": pair("load key[7:0] start text[7:0]", "cipher[7:0] done"),
        "bounded": "forall p. G !(busy_p & round[2]_p = 1)",
    }),
    ("tries", TRIES, {}, {
        "lamp": f"forall p. forall q. rst_p & G {same('rst press digit[1:0]')} & G (rst_p | accept_p = accept_q) -> "
                "G (rst_p | busy_p = busy_q)",
        "dead": "forall p. rst_p & X G !rst_p -> X G (dead_p -> G !open_p)",
        "bounded": "forall p. rst_p -> X G (failed[1:0]_p != 3)",
    }),
    ("robin", ROBIN, {}, {
        "timing": pair("req[0]", "gnt[0]"),
        "one": f"forall p. G ({ONE_GRANT})",
        "served": "forall p. G (req[0]_p = 1) -> G F (gnt[0]_p = 1)",
        "three": f"forall p. forall q. forall r. G {same('req[0]', 'pqr')} -> "
                 "G (gnt[0]_p = 1 & gnt[0]_q = 1 -> gnt[0]_r = 1)",
    }),
    ("memory", MEMORY, {}, {
        "timing": reset("set req write addr[1:0] din", "ready"),
        "bounded": "forall p. rst_p -> X G !(left[2]_p = 1 & left[1:0]_p != 0)",
    }),
    ("traffic", TRAFFIC, {}, {
        "timing": pair("car", "road"),
        "quiet": assumed("car", "(alarm_p -> alarm_q)", "road"),
    }),
    ("shake", SHAKE, {}, {
        "timing": reset("req", "ack took"),
        "total": reset("req word[3:0]", "total[3:0]"),
        "answered": "forall p. rst_p & X G (!rst_p & req_p) -> F ack_p",
    }),
    ("dispatch", DISPATCH, {}, {
        "timing": pair("job done0 done1", "sent0 sent1 stuck"),
        "zero": "forall p. G !zero_p",
        "bounded": "forall p. G !overrun_p",
    }),
    ("bank", BANK, {}, {
        "wiped": reset("enter leave write at[1:0] word[1:0]", "read[1:0]"),
        "closed": f"forall p. forall q. rst_p & G ({same('rst enter write at[1:0] word[1:0]')} & !enter_p) -> "
                  "G (rst_p | read[1:0]_p = read[1:0]_q)",
    }),
    ("dma", DMA, {}, {
        "timing": pair("go0 length0[2:0]", "busy0 move0"),
    }),
    ("pipe", PIPE, {}, {
        "timing": pair("issue divide", "stall retire"),
        "bounded": "forall p. G !(left[2]_p = 1 & left[1]_p = 1)",
    }),
    *((f"registers-{8 << bits}", REGISTERS, {"BITS": bits}, {
        "owned": pair(f"enable who to[{bits - 1}:0] from[{bits - 1}:0] data[7:0]", "out[7:0]"),
        "function": pair(f"enable who to[{bits - 1}:0] from[{bits - 1}:0] data[7:0] hidden[7:0]", "out[7:0]"),
    }) for bits in (4, 6)),
    ("core", CORE, {}, {
        "timing": pair("code[2:0] to[3:0] left[3:0] right[3:0]", "ready"),
        "function": pair("code[2:0] to[3:0] left[3:0] right[3:0] word[15:0]", "ready shown[15:0]"),
    }),
]
