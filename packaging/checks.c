/* Written by tools/c_bindings.py from include/sctpr.h.
 *
 * Each call of sctpr.h that takes a pointer: it tests for NULL, and then makes the proved call, whose name has `proved_` in it
 * (packaging/archive.py). Nothing else is done here. */
#include "sctpr.h"

sctpr_code sctpr_proved_code_name(sctpr_code code, uint8_t *out, size_t room, size_t *written);
sctpr_code sctpr_code_name(sctpr_code code, uint8_t *out, size_t room, size_t *written) {
    if ((out == NULL && room > 0) || written == NULL) return SCTPR_INVALID;
    return sctpr_proved_code_name(code, out, room, written);
}

sctpr_code sctpr_proved_read_packet(const uint8_t *packet, size_t length, struct sctpr_head *head, struct sctpr_chunk *rows, size_t room,
    size_t *count);
sctpr_code sctpr_read_packet(const uint8_t *packet, size_t length, struct sctpr_head *head, struct sctpr_chunk *rows, size_t room,
    size_t *count) {
    if ((packet == NULL && length > 0) || head == NULL || (rows == NULL && room > 0) || count == NULL) return SCTPR_INVALID;
    return sctpr_proved_read_packet(packet, length, head, rows, room, count);
}

sctpr_code sctpr_proved_read_packet_with_sum(const uint8_t *packet, size_t length, uint32_t sum, struct sctpr_head *head,
    struct sctpr_chunk *rows, size_t room, size_t *count);
sctpr_code sctpr_read_packet_with_sum(const uint8_t *packet, size_t length, uint32_t sum, struct sctpr_head *head,
    struct sctpr_chunk *rows, size_t room, size_t *count) {
    if ((packet == NULL && length > 0) || head == NULL || (rows == NULL && room > 0) || count == NULL) return SCTPR_INVALID;
    return sctpr_proved_read_packet_with_sum(packet, length, sum, head, rows, room, count);
}

sctpr_code sctpr_proved_read_any_packet(const uint8_t *packet, size_t length, struct sctpr_head *head, struct sctpr_any_chunk *rows,
    size_t room, size_t *count);
sctpr_code sctpr_read_any_packet(const uint8_t *packet, size_t length, struct sctpr_head *head, struct sctpr_any_chunk *rows, size_t room,
    size_t *count) {
    if ((packet == NULL && length > 0) || head == NULL || (rows == NULL && room > 0) || count == NULL) return SCTPR_INVALID;
    return sctpr_proved_read_any_packet(packet, length, head, rows, room, count);
}

sctpr_code sctpr_proved_read_any_packet_with_sum(const uint8_t *packet, size_t length, uint32_t sum, struct sctpr_head *head,
    struct sctpr_any_chunk *rows, size_t room, size_t *count);
sctpr_code sctpr_read_any_packet_with_sum(const uint8_t *packet, size_t length, uint32_t sum, struct sctpr_head *head,
    struct sctpr_any_chunk *rows, size_t room, size_t *count) {
    if ((packet == NULL && length > 0) || head == NULL || (rows == NULL && room > 0) || count == NULL) return SCTPR_INVALID;
    return sctpr_proved_read_any_packet_with_sum(packet, length, sum, head, rows, room, count);
}

sctpr_code sctpr_proved_read_data(const uint8_t *chunk, size_t length, struct sctpr_data *data);
sctpr_code sctpr_read_data(const uint8_t *chunk, size_t length, struct sctpr_data *data) {
    if ((chunk == NULL && length > 0) || data == NULL) return SCTPR_INVALID;
    return sctpr_proved_read_data(chunk, length, data);
}

sctpr_code sctpr_proved_read_sack(const uint8_t *chunk, size_t length, struct sctpr_sack *sack, struct sctpr_gap *blocks,
    size_t blocks_room, uint32_t *duplicates, size_t duplicates_room);
sctpr_code sctpr_read_sack(const uint8_t *chunk, size_t length, struct sctpr_sack *sack, struct sctpr_gap *blocks, size_t blocks_room,
    uint32_t *duplicates, size_t duplicates_room) {
    if ((chunk == NULL && length > 0) || sack == NULL || (blocks == NULL && blocks_room > 0)
        || (duplicates == NULL && duplicates_room > 0)) return SCTPR_INVALID;
    return sctpr_proved_read_sack(chunk, length, sack, blocks, blocks_room, duplicates, duplicates_room);
}

sctpr_code sctpr_proved_read_forward_tsn(const uint8_t *chunk, size_t length, uint32_t *new_cumulative_tsn, struct sctpr_skip *streams,
    size_t room, size_t *count);
sctpr_code sctpr_read_forward_tsn(const uint8_t *chunk, size_t length, uint32_t *new_cumulative_tsn, struct sctpr_skip *streams,
    size_t room, size_t *count) {
    if ((chunk == NULL && length > 0) || new_cumulative_tsn == NULL || (streams == NULL && room > 0) || count == NULL) return SCTPR_INVALID;
    return sctpr_proved_read_forward_tsn(chunk, length, new_cumulative_tsn, streams, room, count);
}

sctpr_code sctpr_proved_read_init(const uint8_t *chunk, size_t length, struct sctpr_init *init);
sctpr_code sctpr_read_init(const uint8_t *chunk, size_t length, struct sctpr_init *init) {
    if ((chunk == NULL && length > 0) || init == NULL) return SCTPR_INVALID;
    return sctpr_proved_read_init(chunk, length, init);
}

sctpr_code sctpr_proved_read_shutdown(const uint8_t *chunk, size_t length, uint32_t *cumulative_tsn);
sctpr_code sctpr_read_shutdown(const uint8_t *chunk, size_t length, uint32_t *cumulative_tsn) {
    if ((chunk == NULL && length > 0) || cumulative_tsn == NULL) return SCTPR_INVALID;
    return sctpr_proved_read_shutdown(chunk, length, cumulative_tsn);
}

sctpr_code sctpr_proved_read_param(const uint8_t *bytes, size_t length, struct sctpr_param *param);
sctpr_code sctpr_read_param(const uint8_t *bytes, size_t length, struct sctpr_param *param) {
    if ((bytes == NULL && length > 0) || param == NULL) return SCTPR_INVALID;
    return sctpr_proved_read_param(bytes, length, param);
}

sctpr_code sctpr_proved_read_any_param(const uint8_t *bytes, size_t length, struct sctpr_param *param);
sctpr_code sctpr_read_any_param(const uint8_t *bytes, size_t length, struct sctpr_param *param) {
    if ((bytes == NULL && length > 0) || param == NULL) return SCTPR_INVALID;
    return sctpr_proved_read_any_param(bytes, length, param);
}

sctpr_code sctpr_proved_read_request(const uint8_t *bytes, size_t length, uint32_t *number);
sctpr_code sctpr_read_request(const uint8_t *bytes, size_t length, uint32_t *number) {
    if ((bytes == NULL && length > 0) || number == NULL) return SCTPR_INVALID;
    return sctpr_proved_read_request(bytes, length, number);
}

sctpr_code sctpr_proved_read_reset(const uint8_t *bytes, size_t length, struct sctpr_reset *reset, uint16_t *streams, size_t room,
    size_t *count);
sctpr_code sctpr_read_reset(const uint8_t *bytes, size_t length, struct sctpr_reset *reset, uint16_t *streams, size_t room, size_t *count) {
    if ((bytes == NULL && length > 0) || reset == NULL || (streams == NULL && room > 0) || count == NULL) return SCTPR_INVALID;
    return sctpr_proved_read_reset(bytes, length, reset, streams, room, count);
}

sctpr_code sctpr_proved_read_incoming_reset(const uint8_t *bytes, size_t length, uint32_t *number, uint16_t *streams, size_t room,
    size_t *count);
sctpr_code sctpr_read_incoming_reset(const uint8_t *bytes, size_t length, uint32_t *number, uint16_t *streams, size_t room, size_t *count) {
    if ((bytes == NULL && length > 0) || number == NULL || (streams == NULL && room > 0) || count == NULL) return SCTPR_INVALID;
    return sctpr_proved_read_incoming_reset(bytes, length, number, streams, room, count);
}

sctpr_code sctpr_proved_read_add_streams(const uint8_t *bytes, size_t length, struct sctpr_add_streams *add);
sctpr_code sctpr_read_add_streams(const uint8_t *bytes, size_t length, struct sctpr_add_streams *add) {
    if ((bytes == NULL && length > 0) || add == NULL) return SCTPR_INVALID;
    return sctpr_proved_read_add_streams(bytes, length, add);
}

sctpr_code sctpr_proved_read_response(const uint8_t *bytes, size_t length, struct sctpr_response *response);
sctpr_code sctpr_read_response(const uint8_t *bytes, size_t length, struct sctpr_response *response) {
    if ((bytes == NULL && length > 0) || response == NULL) return SCTPR_INVALID;
    return sctpr_proved_read_response(bytes, length, response);
}

sctpr_code sctpr_proved_read_cause(const uint8_t *bytes, size_t length, struct sctpr_cause *cause);
sctpr_code sctpr_read_cause(const uint8_t *bytes, size_t length, struct sctpr_cause *cause) {
    if ((bytes == NULL && length > 0) || cause == NULL) return SCTPR_INVALID;
    return sctpr_proved_read_cause(bytes, length, cause);
}

sctpr_code sctpr_proved_write_chunk(uint8_t type, const uint8_t *value, size_t length, uint8_t *out, size_t room, size_t *written);
sctpr_code sctpr_write_chunk(uint8_t type, const uint8_t *value, size_t length, uint8_t *out, size_t room, size_t *written) {
    if ((value == NULL && length > 0) || (out == NULL && room > 0) || written == NULL) return SCTPR_INVALID;
    return sctpr_proved_write_chunk(type, value, length, out, room, written);
}

sctpr_code sctpr_proved_write_chunk_with_flags(uint8_t type, uint8_t flags, const uint8_t *value, size_t length, uint8_t *out,
    size_t room, size_t *written);
sctpr_code sctpr_write_chunk_with_flags(uint8_t type, uint8_t flags, const uint8_t *value, size_t length, uint8_t *out, size_t room,
    size_t *written) {
    if ((value == NULL && length > 0) || (out == NULL && room > 0) || written == NULL) return SCTPR_INVALID;
    return sctpr_proved_write_chunk_with_flags(type, flags, value, length, out, room, written);
}

sctpr_code sctpr_proved_write_init(const struct sctpr_init *init, const uint8_t *params, size_t length, uint8_t *out, size_t room,
    size_t *written);
sctpr_code sctpr_write_init(const struct sctpr_init *init, const uint8_t *params, size_t length, uint8_t *out, size_t room,
    size_t *written) {
    if (init == NULL || (params == NULL && length > 0) || (out == NULL && room > 0) || written == NULL) return SCTPR_INVALID;
    return sctpr_proved_write_init(init, params, length, out, room, written);
}

sctpr_code sctpr_proved_write_param(uint16_t type, const uint8_t *value, size_t length, uint8_t *out, size_t room, size_t *written);
sctpr_code sctpr_write_param(uint16_t type, const uint8_t *value, size_t length, uint8_t *out, size_t room, size_t *written) {
    if ((value == NULL && length > 0) || (out == NULL && room > 0) || written == NULL) return SCTPR_INVALID;
    return sctpr_proved_write_param(type, value, length, out, room, written);
}

sctpr_code sctpr_proved_write_reset(const struct sctpr_reset *reset, const uint16_t *streams, size_t count, uint8_t *out, size_t room,
    size_t *written);
sctpr_code sctpr_write_reset(const struct sctpr_reset *reset, const uint16_t *streams, size_t count, uint8_t *out, size_t room,
    size_t *written) {
    if (reset == NULL || (streams == NULL && count > 0) || (out == NULL && room > 0) || written == NULL) return SCTPR_INVALID;
    return sctpr_proved_write_reset(reset, streams, count, out, room, written);
}

sctpr_code sctpr_proved_write_incoming_reset(uint32_t request, const uint16_t *streams, size_t count, uint8_t *out, size_t room,
    size_t *written);
sctpr_code sctpr_write_incoming_reset(uint32_t request, const uint16_t *streams, size_t count, uint8_t *out, size_t room, size_t *written) {
    if ((streams == NULL && count > 0) || (out == NULL && room > 0) || written == NULL) return SCTPR_INVALID;
    return sctpr_proved_write_incoming_reset(request, streams, count, out, room, written);
}

sctpr_code sctpr_proved_write_ssn_tsn_reset(uint32_t request, uint8_t *out, size_t room, size_t *written);
sctpr_code sctpr_write_ssn_tsn_reset(uint32_t request, uint8_t *out, size_t room, size_t *written) {
    if ((out == NULL && room > 0) || written == NULL) return SCTPR_INVALID;
    return sctpr_proved_write_ssn_tsn_reset(request, out, room, written);
}

sctpr_code sctpr_proved_write_add_streams(const struct sctpr_add_streams *add, uint8_t *out, size_t room, size_t *written);
sctpr_code sctpr_write_add_streams(const struct sctpr_add_streams *add, uint8_t *out, size_t room, size_t *written) {
    if (add == NULL || (out == NULL && room > 0) || written == NULL) return SCTPR_INVALID;
    return sctpr_proved_write_add_streams(add, out, room, written);
}

sctpr_code sctpr_proved_write_response(const struct sctpr_response *response, uint8_t *out, size_t room, size_t *written);
sctpr_code sctpr_write_response(const struct sctpr_response *response, uint8_t *out, size_t room, size_t *written) {
    if (response == NULL || (out == NULL && room > 0) || written == NULL) return SCTPR_INVALID;
    return sctpr_proved_write_response(response, out, room, written);
}

sctpr_code sctpr_proved_write_cause(uint16_t code, const uint8_t *value, size_t length, uint8_t *out, size_t room, size_t *written);
sctpr_code sctpr_write_cause(uint16_t code, const uint8_t *value, size_t length, uint8_t *out, size_t room, size_t *written) {
    if ((value == NULL && length > 0) || (out == NULL && room > 0) || written == NULL) return SCTPR_INVALID;
    return sctpr_proved_write_cause(code, value, length, out, room, written);
}

sctpr_code sctpr_proved_seal_packet(const struct sctpr_head *head, uint8_t *packet, size_t length);
sctpr_code sctpr_seal_packet(const struct sctpr_head *head, uint8_t *packet, size_t length) {
    if (head == NULL || (packet == NULL && length > 0)) return SCTPR_INVALID;
    return sctpr_proved_seal_packet(head, packet, length);
}

sctpr_code sctpr_proved_write_head(const struct sctpr_head *head, uint8_t *packet, size_t length);
sctpr_code sctpr_write_head(const struct sctpr_head *head, uint8_t *packet, size_t length) {
    if (head == NULL || (packet == NULL && length > 0)) return SCTPR_INVALID;
    return sctpr_proved_write_head(head, packet, length);
}

sctpr_code sctpr_proved_store_sum(uint32_t sum, uint8_t *packet, size_t length);
sctpr_code sctpr_store_sum(uint32_t sum, uint8_t *packet, size_t length) {
    if ((packet == NULL && length > 0)) return SCTPR_INVALID;
    return sctpr_proved_store_sum(sum, packet, length);
}

sctpr_code sctpr_proved_receiver_new(uint32_t first_tsn, uint32_t max_message_size, size_t window, uint32_t reach, sctpr_receiver *out);
sctpr_code sctpr_receiver_new(uint32_t first_tsn, uint32_t max_message_size, size_t window, uint32_t reach, sctpr_receiver *out) {
    if (out == NULL) return SCTPR_INVALID;
    return sctpr_proved_receiver_new(first_tsn, max_message_size, window, reach, out);
}

sctpr_code sctpr_proved_receiver_new_unlimited(uint32_t first_tsn, uint32_t max_message_size, sctpr_receiver *out);
sctpr_code sctpr_receiver_new_unlimited(uint32_t first_tsn, uint32_t max_message_size, sctpr_receiver *out) {
    if (out == NULL) return SCTPR_INVALID;
    return sctpr_proved_receiver_new_unlimited(first_tsn, max_message_size, out);
}

void sctpr_proved_receiver_free_handle(sctpr_receiver receiver);
void sctpr_receiver_free(sctpr_receiver *receiver) {
    if (receiver == NULL || receiver->at == NULL) return;
    sctpr_proved_receiver_free_handle(*receiver);
    receiver->at = NULL;
}

sctpr_code sctpr_proved_receiver_open(sctpr_receiver *receiver, uint16_t stream);
sctpr_code sctpr_receiver_open(sctpr_receiver *receiver, uint16_t stream) {
    if (receiver == NULL || receiver->at == NULL) return SCTPR_INVALID;
    return sctpr_proved_receiver_open(receiver, stream);
}

void sctpr_proved_receiver_close(sctpr_receiver *receiver, uint16_t stream);
void sctpr_receiver_close(sctpr_receiver *receiver, uint16_t stream) {
    if (receiver == NULL || receiver->at == NULL) return;
    sctpr_proved_receiver_close(receiver, stream);
}

sctpr_code sctpr_proved_receiver_reset(sctpr_receiver *receiver, uint16_t stream, uint32_t last_tsn);
sctpr_code sctpr_receiver_reset(sctpr_receiver *receiver, uint16_t stream, uint32_t last_tsn) {
    if (receiver == NULL || receiver->at == NULL) return SCTPR_INVALID;
    return sctpr_proved_receiver_reset(receiver, stream, last_tsn);
}

sctpr_code sctpr_proved_receiver_data(sctpr_receiver *receiver, const uint8_t *chunk, size_t length, uint8_t *complete);
sctpr_code sctpr_receiver_data(sctpr_receiver *receiver, const uint8_t *chunk, size_t length, uint8_t *complete) {
    if (receiver == NULL || receiver->at == NULL || (chunk == NULL && length > 0) || complete == NULL) return SCTPR_INVALID;
    return sctpr_proved_receiver_data(receiver, chunk, length, complete);
}

sctpr_code sctpr_proved_receiver_discard(sctpr_receiver *receiver, uint32_t tsn);
sctpr_code sctpr_receiver_discard(sctpr_receiver *receiver, uint32_t tsn) {
    if (receiver == NULL || receiver->at == NULL) return SCTPR_INVALID;
    return sctpr_proved_receiver_discard(receiver, tsn);
}

sctpr_code sctpr_proved_receiver_forward_tsn(sctpr_receiver *receiver, const uint8_t *chunk, size_t length);
sctpr_code sctpr_receiver_forward_tsn(sctpr_receiver *receiver, const uint8_t *chunk, size_t length) {
    if (receiver == NULL || receiver->at == NULL || (chunk == NULL && length > 0)) return SCTPR_INVALID;
    return sctpr_proved_receiver_forward_tsn(receiver, chunk, length);
}

sctpr_code sctpr_proved_receiver_forward_tsn_past_closed(sctpr_receiver *receiver, const uint8_t *chunk, size_t length);
sctpr_code sctpr_receiver_forward_tsn_past_closed(sctpr_receiver *receiver, const uint8_t *chunk, size_t length) {
    if (receiver == NULL || receiver->at == NULL || (chunk == NULL && length > 0)) return SCTPR_INVALID;
    return sctpr_proved_receiver_forward_tsn_past_closed(receiver, chunk, length);
}

sctpr_code sctpr_proved_receiver_next_length(const sctpr_receiver *receiver, uint16_t stream, size_t *size, uint32_t *payload_type);
sctpr_code sctpr_receiver_next_length(const sctpr_receiver *receiver, uint16_t stream, size_t *size, uint32_t *payload_type) {
    if (receiver == NULL || receiver->at == NULL || size == NULL || payload_type == NULL) return SCTPR_INVALID;
    return sctpr_proved_receiver_next_length(receiver, stream, size, payload_type);
}

sctpr_code sctpr_proved_receiver_read(sctpr_receiver *receiver, uint16_t stream, uint8_t *out, size_t room, size_t *size,
    uint32_t *payload_type);
sctpr_code sctpr_receiver_read(sctpr_receiver *receiver, uint16_t stream, uint8_t *out, size_t room, size_t *size, uint32_t *payload_type) {
    if (receiver == NULL || receiver->at == NULL || (out == NULL && room > 0) || size == NULL || payload_type == NULL) return SCTPR_INVALID;
    return sctpr_proved_receiver_read(receiver, stream, out, room, size, payload_type);
}

sctpr_code sctpr_proved_receiver_readable_streams(const sctpr_receiver *receiver, uint16_t *streams, size_t room, size_t *count);
sctpr_code sctpr_receiver_readable_streams(const sctpr_receiver *receiver, uint16_t *streams, size_t room, size_t *count) {
    if (receiver == NULL || receiver->at == NULL || (streams == NULL && room > 0) || count == NULL) return SCTPR_INVALID;
    return sctpr_proved_receiver_readable_streams(receiver, streams, room, count);
}

sctpr_code sctpr_proved_receiver_sack(sctpr_receiver *receiver, uint8_t *out, size_t room, size_t *written);
sctpr_code sctpr_receiver_sack(sctpr_receiver *receiver, uint8_t *out, size_t room, size_t *written) {
    if (receiver == NULL || receiver->at == NULL || (out == NULL && room > 0) || written == NULL) return SCTPR_INVALID;
    return sctpr_proved_receiver_sack(receiver, out, room, written);
}

uint32_t sctpr_proved_receiver_cumulative_tsn(const sctpr_receiver *receiver);
uint32_t sctpr_receiver_cumulative_tsn(const sctpr_receiver *receiver) {
    if (receiver == NULL || receiver->at == NULL) return 0;
    return sctpr_proved_receiver_cumulative_tsn(receiver);
}

uint32_t sctpr_proved_receiver_window(const sctpr_receiver *receiver);
uint32_t sctpr_receiver_window(const sctpr_receiver *receiver) {
    if (receiver == NULL || receiver->at == NULL) return 0;
    return sctpr_proved_receiver_window(receiver);
}

size_t sctpr_proved_receiver_held_bytes(const sctpr_receiver *receiver);
size_t sctpr_receiver_held_bytes(const sctpr_receiver *receiver) {
    if (receiver == NULL || receiver->at == NULL) return 0;
    return sctpr_proved_receiver_held_bytes(receiver);
}

sctpr_code sctpr_proved_sender_new(uint32_t first_tsn, uint32_t fragment_size, uint32_t max_message_size, uint8_t keeps_reported,
    sctpr_sender *out);
sctpr_code sctpr_sender_new(uint32_t first_tsn, uint32_t fragment_size, uint32_t max_message_size, uint8_t keeps_reported,
    sctpr_sender *out) {
    if (out == NULL) return SCTPR_INVALID;
    return sctpr_proved_sender_new(first_tsn, fragment_size, max_message_size, keeps_reported, out);
}

void sctpr_proved_sender_free_handle(sctpr_sender sender);
void sctpr_sender_free(sctpr_sender *sender) {
    if (sender == NULL || sender->at == NULL) return;
    sctpr_proved_sender_free_handle(*sender);
    sender->at = NULL;
}

sctpr_code sctpr_proved_sender_open(sctpr_sender *sender, uint16_t stream);
sctpr_code sctpr_sender_open(sctpr_sender *sender, uint16_t stream) {
    if (sender == NULL || sender->at == NULL) return SCTPR_INVALID;
    return sctpr_proved_sender_open(sender, stream);
}

void sctpr_proved_sender_close(sctpr_sender *sender, uint16_t stream);
void sctpr_sender_close(sctpr_sender *sender, uint16_t stream) {
    if (sender == NULL || sender->at == NULL) return;
    sctpr_proved_sender_close(sender, stream);
}

sctpr_code sctpr_proved_sender_set_mode(sctpr_sender *sender, uint16_t stream, uint8_t unordered, uint32_t reliability, uint32_t value);
sctpr_code sctpr_sender_set_mode(sctpr_sender *sender, uint16_t stream, uint8_t unordered, uint32_t reliability, uint32_t value) {
    if (sender == NULL || sender->at == NULL) return SCTPR_INVALID;
    return sctpr_proved_sender_set_mode(sender, stream, unordered, reliability, value);
}

sctpr_code sctpr_proved_sender_set_fragment_size(sctpr_sender *sender, uint32_t size);
sctpr_code sctpr_sender_set_fragment_size(sctpr_sender *sender, uint32_t size) {
    if (sender == NULL || sender->at == NULL) return SCTPR_INVALID;
    return sctpr_proved_sender_set_fragment_size(sender, size);
}

sctpr_code sctpr_proved_sender_set_low_threshold(sctpr_sender *sender, uint16_t stream, size_t bytes);
sctpr_code sctpr_sender_set_low_threshold(sctpr_sender *sender, uint16_t stream, size_t bytes) {
    if (sender == NULL || sender->at == NULL) return SCTPR_INVALID;
    return sctpr_proved_sender_set_low_threshold(sender, stream, bytes);
}

sctpr_code sctpr_proved_sender_reset(sctpr_sender *sender, uint16_t stream);
sctpr_code sctpr_sender_reset(sctpr_sender *sender, uint16_t stream) {
    if (sender == NULL || sender->at == NULL) return SCTPR_INVALID;
    return sctpr_proved_sender_reset(sender, stream);
}

sctpr_code sctpr_proved_sender_write(sctpr_sender *sender, uint16_t stream, uint32_t payload_type, const uint8_t *message, size_t length,
    uint64_t *number, size_t *fragments);
sctpr_code sctpr_sender_write(sctpr_sender *sender, uint16_t stream, uint32_t payload_type, const uint8_t *message, size_t length,
    uint64_t *number, size_t *fragments) {
    if (sender == NULL || sender->at == NULL || (message == NULL && length > 0) || number == NULL
        || fragments == NULL) return SCTPR_INVALID;
    return sctpr_proved_sender_write(sender, stream, payload_type, message, length, number, fragments);
}

void sctpr_proved_sender_start(sctpr_sender *sender, uint64_t now);
void sctpr_sender_start(sctpr_sender *sender, uint64_t now) {
    if (sender == NULL || sender->at == NULL) return;
    sctpr_proved_sender_start(sender, now);
}

sctpr_code sctpr_proved_sender_send_next(sctpr_sender *sender, uint64_t now, uint8_t *out, size_t room, size_t *written, uint32_t *tsn);
sctpr_code sctpr_sender_send_next(sctpr_sender *sender, uint64_t now, uint8_t *out, size_t room, size_t *written, uint32_t *tsn) {
    if (sender == NULL || sender->at == NULL || (out == NULL && room > 0) || written == NULL || tsn == NULL) return SCTPR_INVALID;
    return sctpr_proved_sender_send_next(sender, now, out, room, written, tsn);
}

sctpr_code sctpr_proved_sender_resend(sctpr_sender *sender, uint32_t tsn, uint64_t now, uint8_t *out, size_t room, size_t *written);
sctpr_code sctpr_sender_resend(sctpr_sender *sender, uint32_t tsn, uint64_t now, uint8_t *out, size_t room, size_t *written) {
    if (sender == NULL || sender->at == NULL || (out == NULL && room > 0) || written == NULL) return SCTPR_INVALID;
    return sctpr_proved_sender_resend(sender, tsn, now, out, room, written);
}

void sctpr_proved_sender_retransmit_all(sctpr_sender *sender);
void sctpr_sender_retransmit_all(sctpr_sender *sender) {
    if (sender == NULL || sender->at == NULL) return;
    sctpr_proved_sender_retransmit_all(sender);
}

size_t sctpr_proved_sender_add_miss_indications(sctpr_sender *sender, uint32_t before);
size_t sctpr_sender_add_miss_indications(sctpr_sender *sender, uint32_t before) {
    if (sender == NULL || sender->at == NULL) return 0;
    return sctpr_proved_sender_add_miss_indications(sender, before);
}

sctpr_code sctpr_proved_sender_in_flight(const sctpr_sender *sender, uint32_t tsn, struct sctpr_in_flight *row);
sctpr_code sctpr_sender_in_flight(const sctpr_sender *sender, uint32_t tsn, struct sctpr_in_flight *row) {
    if (sender == NULL || sender->at == NULL || row == NULL) return SCTPR_INVALID;
    return sctpr_proved_sender_in_flight(sender, tsn, row);
}

sctpr_code sctpr_proved_sender_in_flight_at(const sctpr_sender *sender, size_t place, struct sctpr_in_flight *row);
sctpr_code sctpr_sender_in_flight_at(const sctpr_sender *sender, size_t place, struct sctpr_in_flight *row) {
    if (sender == NULL || sender->at == NULL || row == NULL) return SCTPR_INVALID;
    return sctpr_proved_sender_in_flight_at(sender, place, row);
}

sctpr_code sctpr_proved_sender_next_to_retransmit(const sctpr_sender *sender, struct sctpr_in_flight *row);
sctpr_code sctpr_sender_next_to_retransmit(const sctpr_sender *sender, struct sctpr_in_flight *row) {
    if (sender == NULL || sender->at == NULL || row == NULL) return SCTPR_INVALID;
    return sctpr_proved_sender_next_to_retransmit(sender, row);
}

sctpr_code sctpr_proved_sender_acked(sctpr_sender *sender, const uint8_t *chunk, size_t length, struct sctpr_acked *rows, size_t room,
    size_t *count);
sctpr_code sctpr_sender_acked(sctpr_sender *sender, const uint8_t *chunk, size_t length, struct sctpr_acked *rows, size_t room,
    size_t *count) {
    if (sender == NULL || sender->at == NULL || (chunk == NULL && length > 0) || (rows == NULL && room > 0)
        || count == NULL) return SCTPR_INVALID;
    return sctpr_proved_sender_acked(sender, chunk, length, rows, room, count);
}

sctpr_code sctpr_proved_sender_acked_up_to(sctpr_sender *sender, uint32_t tsn, struct sctpr_acked *rows, size_t room, size_t *count);
sctpr_code sctpr_sender_acked_up_to(sctpr_sender *sender, uint32_t tsn, struct sctpr_acked *rows, size_t room, size_t *count) {
    if (sender == NULL || sender->at == NULL || (rows == NULL && room > 0) || count == NULL) return SCTPR_INVALID;
    return sctpr_proved_sender_acked_up_to(sender, tsn, rows, room, count);
}

sctpr_code sctpr_proved_sender_take_back(sctpr_sender *sender, const uint8_t *chunk, size_t length, struct sctpr_taken_back *rows,
    size_t room, size_t *count);
sctpr_code sctpr_sender_take_back(sctpr_sender *sender, const uint8_t *chunk, size_t length, struct sctpr_taken_back *rows, size_t room,
    size_t *count) {
    if (sender == NULL || sender->at == NULL || (chunk == NULL && length > 0) || (rows == NULL && room > 0)
        || count == NULL) return SCTPR_INVALID;
    return sctpr_proved_sender_take_back(sender, chunk, length, rows, room, count);
}

sctpr_code sctpr_proved_sender_abandon(sctpr_sender *sender, uint32_t tsn, struct sctpr_abandoned *row);
sctpr_code sctpr_sender_abandon(sctpr_sender *sender, uint32_t tsn, struct sctpr_abandoned *row) {
    if (sender == NULL || sender->at == NULL || row == NULL) return SCTPR_INVALID;
    return sctpr_proved_sender_abandon(sender, tsn, row);
}

sctpr_code sctpr_proved_sender_expire(sctpr_sender *sender, uint64_t now, struct sctpr_expired *row);
sctpr_code sctpr_sender_expire(sctpr_sender *sender, uint64_t now, struct sctpr_expired *row) {
    if (sender == NULL || sender->at == NULL || row == NULL) return SCTPR_INVALID;
    return sctpr_proved_sender_expire(sender, now, row);
}

sctpr_code sctpr_proved_sender_expire_tail(sctpr_sender *sender, uint64_t now, struct sctpr_abandoned *row);
sctpr_code sctpr_sender_expire_tail(sctpr_sender *sender, uint64_t now, struct sctpr_abandoned *row) {
    if (sender == NULL || sender->at == NULL || row == NULL) return SCTPR_INVALID;
    return sctpr_proved_sender_expire_tail(sender, now, row);
}

sctpr_code sctpr_proved_sender_expire_late(sctpr_sender *sender, uint64_t now, struct sctpr_abandoned *rows, size_t room, size_t *count);
sctpr_code sctpr_sender_expire_late(sctpr_sender *sender, uint64_t now, struct sctpr_abandoned *rows, size_t room, size_t *count) {
    if (sender == NULL || sender->at == NULL || (rows == NULL && room > 0) || count == NULL) return SCTPR_INVALID;
    return sctpr_proved_sender_expire_late(sender, now, rows, room, count);
}

sctpr_code sctpr_proved_sender_expire_rexmit(sctpr_sender *sender, struct sctpr_abandoned *rows, size_t room, size_t *count);
sctpr_code sctpr_sender_expire_rexmit(sctpr_sender *sender, struct sctpr_abandoned *rows, size_t room, size_t *count) {
    if (sender == NULL || sender->at == NULL || (rows == NULL && room > 0) || count == NULL) return SCTPR_INVALID;
    return sctpr_proved_sender_expire_rexmit(sender, rows, room, count);
}

sctpr_code sctpr_proved_sender_forward_tsn(sctpr_sender *sender, uint8_t *out, size_t room, size_t *written);
sctpr_code sctpr_sender_forward_tsn(sctpr_sender *sender, uint8_t *out, size_t room, size_t *written) {
    if (sender == NULL || sender->at == NULL || (out == NULL && room > 0) || written == NULL) return SCTPR_INVALID;
    return sctpr_proved_sender_forward_tsn(sender, out, room, written);
}

sctpr_code sctpr_proved_sender_forward_tsn_to(sctpr_sender *sender, uint32_t tsn, uint8_t *out, size_t room, size_t *written);
sctpr_code sctpr_sender_forward_tsn_to(sctpr_sender *sender, uint32_t tsn, uint8_t *out, size_t room, size_t *written) {
    if (sender == NULL || sender->at == NULL || (out == NULL && room > 0) || written == NULL) return SCTPR_INVALID;
    return sctpr_proved_sender_forward_tsn_to(sender, tsn, out, room, written);
}

uint32_t sctpr_proved_sender_next_tsn(const sctpr_sender *sender);
uint32_t sctpr_sender_next_tsn(const sctpr_sender *sender) {
    if (sender == NULL || sender->at == NULL) return 0;
    return sctpr_proved_sender_next_tsn(sender);
}

uint32_t sctpr_proved_sender_acked_tsn(const sctpr_sender *sender);
uint32_t sctpr_sender_acked_tsn(const sctpr_sender *sender) {
    if (sender == NULL || sender->at == NULL) return 0;
    return sctpr_proved_sender_acked_tsn(sender);
}

uint32_t sctpr_proved_sender_advanced_ack_point(const sctpr_sender *sender);
uint32_t sctpr_sender_advanced_ack_point(const sctpr_sender *sender) {
    if (sender == NULL || sender->at == NULL) return 0;
    return sctpr_proved_sender_advanced_ack_point(sender);
}

size_t sctpr_proved_sender_bytes_in_flight(const sctpr_sender *sender);
size_t sctpr_sender_bytes_in_flight(const sctpr_sender *sender) {
    if (sender == NULL || sender->at == NULL) return 0;
    return sctpr_proved_sender_bytes_in_flight(sender);
}

void sctpr_proved_sender_outstanding(const sctpr_sender *sender, struct sctpr_outstanding *row);
void sctpr_sender_outstanding(const sctpr_sender *sender, struct sctpr_outstanding *row) {
    if (sender == NULL || sender->at == NULL || row == NULL) return;
    sctpr_proved_sender_outstanding(sender, row);
}

size_t sctpr_proved_sender_chunks_in_flight(const sctpr_sender *sender);
size_t sctpr_sender_chunks_in_flight(const sctpr_sender *sender) {
    if (sender == NULL || sender->at == NULL) return 0;
    return sctpr_proved_sender_chunks_in_flight(sender);
}

sctpr_code sctpr_proved_sender_earliest_outstanding(const sctpr_sender *sender, uint32_t *tsn);
sctpr_code sctpr_sender_earliest_outstanding(const sctpr_sender *sender, uint32_t *tsn) {
    if (sender == NULL || sender->at == NULL || tsn == NULL) return SCTPR_INVALID;
    return sctpr_proved_sender_earliest_outstanding(sender, tsn);
}

sctpr_code sctpr_proved_sender_next_timeout(const sctpr_sender *sender, uint64_t *at);
sctpr_code sctpr_sender_next_timeout(const sctpr_sender *sender, uint64_t *at) {
    if (sender == NULL || sender->at == NULL || at == NULL) return SCTPR_INVALID;
    return sctpr_proved_sender_next_timeout(sender, at);
}

size_t sctpr_proved_sender_pending(const sctpr_sender *sender);
size_t sctpr_sender_pending(const sctpr_sender *sender) {
    if (sender == NULL || sender->at == NULL) return 0;
    return sctpr_proved_sender_pending(sender);
}

sctpr_code sctpr_proved_sender_buffered_amount(const sctpr_sender *sender, uint16_t stream, size_t *amount);
sctpr_code sctpr_sender_buffered_amount(const sctpr_sender *sender, uint16_t stream, size_t *amount) {
    if (sender == NULL || sender->at == NULL || amount == NULL) return SCTPR_INVALID;
    return sctpr_proved_sender_buffered_amount(sender, stream, amount);
}

uint8_t sctpr_proved_sender_is_drained(const sctpr_sender *sender, uint16_t stream);
uint8_t sctpr_sender_is_drained(const sctpr_sender *sender, uint16_t stream) {
    if (sender == NULL || sender->at == NULL) return 0;
    return sctpr_proved_sender_is_drained(sender, stream);
}
