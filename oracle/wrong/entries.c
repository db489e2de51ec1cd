/* The C interface over the entry points of an unproved build. These take a slice as a pointer and a length, give an answer's
   number and place in two registers, and write a wiring where their first argument points. `rt lib` makes this passage itself
   for a proved library. */
#include <stddef.h>
#include <stdint.h>

typedef struct { uint32_t number, place; } plate_answer;
typedef struct { uint32_t number, place, count; uint8_t listed[64]; } plate_wiring;
/* Its parts come back in rax and rdx, of which only the lower halves count. */
typedef struct { uint64_t number, place; } pair;

pair map_judge(const uint8_t *, size_t);
pair map_tail(const uint8_t *, size_t);
pair map_fresh(const uint8_t *, size_t, uint8_t *, size_t);
pair map_block(const uint8_t *, size_t, uint8_t *, size_t, const uint8_t *, size_t, uint8_t *, size_t, uint8_t *, size_t);
pair map_block24(const uint8_t *, size_t, uint8_t *, size_t, const uint8_t *, size_t, uint8_t *, size_t, uint8_t *, size_t);
pair map_message(const uint8_t *, size_t, uint8_t *, size_t, uint32_t, float);
pair map_mix(const uint8_t *, size_t, uint8_t *, size_t, float);
pair map_write(uint32_t, float, uint8_t *, size_t);
void map_add_wire(plate_wiring *, uint8_t *, size_t, size_t, uint16_t, uint16_t);
void map_pull_wire(plate_wiring *, uint8_t *, size_t, size_t, uint16_t, uint16_t);
pair map_delay_length(float);
pair map_allpass_length(float);

static plate_answer answer(pair p) {
  plate_answer a = {(uint32_t)p.number, (uint32_t)p.place};
  return a;
}

plate_answer plate_judge(const uint8_t *board, size_t board_len) { return answer(map_judge(board, board_len)); }
plate_answer plate_tail(const uint8_t *board, size_t board_len) { return answer(map_tail(board, board_len)); }
plate_answer plate_fresh(const uint8_t *board, size_t board_len, uint8_t *memory, size_t memory_len) {
  return answer(map_fresh(board, board_len, memory, memory_len));
}
plate_answer plate_block(const uint8_t *board, size_t board_len, uint8_t *memory, size_t memory_len,
                         const uint8_t *input, size_t input_len, uint8_t *out0, size_t out0_len, uint8_t *out1,
                         size_t out1_len) {
  return answer(map_block(board, board_len, memory, memory_len, input, input_len, out0, out0_len, out1, out1_len));
}
plate_answer plate_block24(const uint8_t *board, size_t board_len, uint8_t *memory, size_t memory_len,
                           const uint8_t *input, size_t input_len, uint8_t *out0, size_t out0_len, uint8_t *out1,
                           size_t out1_len) {
  return answer(map_block24(board, board_len, memory, memory_len, input, input_len, out0, out0_len, out1, out1_len));
}
plate_answer plate_message(const uint8_t *board, size_t board_len, uint8_t *memory, size_t memory_len, uint32_t node,
                           float value) {
  return answer(map_message(board, board_len, memory, memory_len, node, value));
}
plate_answer plate_mix(const uint8_t *board, size_t board_len, uint8_t *memory, size_t memory_len, float mix) {
  return answer(map_mix(board, board_len, memory, memory_len, mix));
}
plate_answer plate_write(uint32_t n, float mix, uint8_t *board, size_t board_len) {
  return answer(map_write(n, mix, board, board_len));
}
plate_wiring plate_add_wire(uint8_t *bytes, size_t bytes_len, size_t board_len, uint16_t source, uint16_t target) {
  plate_wiring w;
  map_add_wire(&w, bytes, bytes_len, board_len, source, target);
  return w;
}
plate_wiring plate_pull_wire(uint8_t *bytes, size_t bytes_len, size_t board_len, uint16_t source, uint16_t target) {
  plate_wiring w;
  map_pull_wire(&w, bytes, bytes_len, board_len, source, target);
  return w;
}
plate_answer plate_delay_length(float ms) { return answer(map_delay_length(ms)); }
plate_answer plate_allpass_length(float ms) { return answer(map_allpass_length(ms)); }
