
#ifdef __GNUC__
#pragma GCC diagnostic pop
#endif

/* The calls of rikselbe.h. */

/* What a call works with: the variables of the code, and what it may use. */
struct rik_call {
    Z_rik_instance_t code;
    struct Z_env_instance_t memory;
};

/* A stack of this many bytes for the code, which keeps its end at a multiple of 16, and what else a call works with. */
#define RIK_BEGIN(size)                        \
    u64 stack[(size) / 8 + 4];                 \
    struct rik_call call;                      \
    rik_begin(&call, stack, sizeof stack)

static void rik_begin(struct rik_call *call, u64 *stack, size_t size) {
    u64 end = (rik_address(stack) + size) & ~(u64)15;
    call->code.Z_env_instance = &call->memory;
    call->code.RIK_STACK_POINTER = end;
    call->code.RIK_IN_CALL = 0;
    call->memory.stack_begin = rik_address(stack);
#ifdef RIKSELBE_CHECKED
    call->memory.count = 0;
#endif
    rik_allow(&call->memory, stack, size, 1);
    rik_allow(&call->memory, rik_data, sizeof rik_data, 0);
}

uint32_t rikselbe_lms_verify(const uint8_t *key, size_t key_len, const uint8_t *message, size_t message_len,
                             const uint8_t *signature, size_t signature_len, uint32_t *leaf) {
    RIK_BEGIN(RIK_STACK_lms_verify);
    rik_allow(&call.memory, key, key_len, 0);
    rik_allow(&call.memory, message, message_len, 0);
    rik_allow(&call.memory, signature, signature_len, 0);
    rik_allow(&call.memory, leaf, sizeof *leaf, 1);
    return w2c_rikselbe_lms_verify(&call.code, rik_address(key), key_len, rik_address(message), message_len,
                                      rik_address(signature), signature_len, rik_address(leaf));
}

uint32_t rikselbe_hss_verify(const uint8_t *key, size_t key_len, const uint8_t *message, size_t message_len,
                             const uint8_t *signature, size_t signature_len) {
    RIK_BEGIN(RIK_STACK_hss_verify);
    rik_allow(&call.memory, key, key_len, 0);
    rik_allow(&call.memory, message, message_len, 0);
    rik_allow(&call.memory, signature, signature_len, 0);
    return w2c_rikselbe_hss_verify(&call.code, rik_address(key), key_len, rik_address(message), message_len,
                                      rik_address(signature), signature_len);
}

void rikselbe_lms_begin(rikselbe_state *state, const uint8_t *key, size_t key_len, const uint8_t *signature,
                        size_t signature_len) {
    RIK_BEGIN(RIK_STACK_lms_begin);
    rik_allow(&call.memory, state, sizeof *state, 1);
    rik_allow(&call.memory, key, key_len, 0);
    rik_allow(&call.memory, signature, signature_len, 0);
    w2c_rikselbe_lms_begin(&call.code, rik_address(state), rik_address(key), key_len, rik_address(signature),
                              signature_len);
}

void rikselbe_lms_update(rikselbe_state *state, const uint8_t *piece, size_t piece_len) {
    RIK_BEGIN(RIK_STACK_lms_update);
    rik_allow(&call.memory, state, sizeof *state, 1);
    rik_allow(&call.memory, piece, piece_len, 0);
    w2c_rikselbe_lms_update(&call.code, rik_address(state), rik_address(piece), piece_len);
}

uint32_t rikselbe_lms_finish(rikselbe_state *state, const uint8_t *signature, size_t signature_len, uint32_t *leaf) {
    RIK_BEGIN(RIK_STACK_lms_finish);
    rik_allow(&call.memory, state, sizeof *state, 1);
    rik_allow(&call.memory, signature, signature_len, 0);
    rik_allow(&call.memory, leaf, sizeof *leaf, 1);
    return w2c_rikselbe_lms_finish(&call.code, rik_address(state), rik_address(signature), signature_len,
                                      rik_address(leaf));
}

void rikselbe_hss_begin(rikselbe_state *state, const uint8_t *key, size_t key_len, const uint8_t *signature,
                        size_t signature_len) {
    RIK_BEGIN(RIK_STACK_hss_begin);
    rik_allow(&call.memory, state, sizeof *state, 1);
    rik_allow(&call.memory, key, key_len, 0);
    rik_allow(&call.memory, signature, signature_len, 0);
    w2c_rikselbe_hss_begin(&call.code, rik_address(state), rik_address(key), key_len, rik_address(signature),
                              signature_len);
}

void rikselbe_hss_update(rikselbe_state *state, const uint8_t *piece, size_t piece_len) {
    RIK_BEGIN(RIK_STACK_hss_update);
    rik_allow(&call.memory, state, sizeof *state, 1);
    rik_allow(&call.memory, piece, piece_len, 0);
    w2c_rikselbe_hss_update(&call.code, rik_address(state), rik_address(piece), piece_len);
}

uint32_t rikselbe_hss_finish(rikselbe_state *state, const uint8_t *signature, size_t signature_len) {
    RIK_BEGIN(RIK_STACK_hss_finish);
    rik_allow(&call.memory, state, sizeof *state, 1);
    rik_allow(&call.memory, signature, signature_len, 0);
    return w2c_rikselbe_hss_finish(&call.code, rik_address(state), rik_address(signature), signature_len);
}
