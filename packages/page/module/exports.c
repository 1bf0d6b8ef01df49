/* The calls of svid.h that the page and the Node package make, as exports of the module.
 *
 * A call that traps, as by want of stack, may leave the memory half written, and JavaScript could catch that and call again. So, as in
 * the kit's own modules, every call after one that trapped traps too (the three functions are in what rattle-link adds). */
#include "svid.h"

_Bool __rattle_enter(void);
void __rattle_leave(void);
void __rattle_trap(void);

#define EXPORT_OF(type, name, parameters, arguments)                                    \
    __attribute__((export_name(#name))) type exported_##name parameters {               \
        type answer;                                                                    \
        if (__rattle_enter()) __rattle_trap();                                          \
        answer = name arguments;                                                        \
        __rattle_leave();                                                               \
        return answer;                                                                  \
    }

#define EXPORT(name, parameters, arguments) EXPORT_OF(uint32_t, name, parameters, arguments)

#define EXPORT_VOID(name, parameters, arguments)                                        \
    __attribute__((export_name(#name))) void exported_##name parameters {               \
        if (__rattle_enter()) __rattle_trap();                                          \
        name arguments;                                                                 \
        __rattle_leave();                                                               \
    }

EXPORT(svid_version, (void), ())
EXPORT(svid_status_name, (uint32_t number, uint8_t *out, size_t out_len, svid_told *told), (number, out, out_len, told))
EXPORT(svid_status_sentence, (uint32_t number, uint8_t *out, size_t out_len, svid_told *told), (number, out, out_len, told))
EXPORT(svid_id_parse, (const uint8_t *text, size_t text_len, svid_id *out), (text, text_len, out))
EXPORT(svid_key_spki,
       (const uint8_t *key, size_t key_len, const uint8_t *alg, size_t alg_len, size_t most_bits, uint8_t *out, size_t out_len,
        svid_told *told),
       (key, key_len, alg, alg_len, most_bits, out, out_len, told))
EXPORT(svid_key_text,
       (const uint8_t *entry, size_t entry_len, uint8_t *out, size_t out_len, svid_told *told),
       (entry, entry_len, out, out_len, told))
EXPORT(svid_bundles_join,
       (const uint8_t *bytes, size_t bytes_len, const svid_document *documents, size_t documents_len, uint8_t *out, size_t out_len,
        svid_told *told),
       (bytes, bytes_len, documents, documents_len, out, out_len, told))
EXPORT(svid_join,
       (const uint8_t *a, size_t a_len, const uint8_t *b, size_t b_len, uint64_t now, uint8_t *out, size_t out_len, svid_told *told),
       (a, a_len, b, b_len, now, out, out_len, told))
EXPORT(svid_report,
       (const uint8_t *messages, size_t messages_len, uint64_t now, uint8_t *out, size_t out_len, svid_told *told),
       (messages, messages_len, now, out, out_len, told))
EXPORT(svid_validator_open,
       (svid_validator *v, const svid_terms *terms, const uint8_t *own, size_t own_len, const uint8_t *bundles, size_t bundles_len,
        svid_told *told),
       (v, terms, own, own_len, bundles, bundles_len, told))
EXPORT(svid_validator_withdraw,
       (svid_validator *v, uint64_t now, const svid_key *key, uint64_t exp, svid_use *used, svid_told *told),
       (v, now, key, exp, used, told))
EXPORT(svid_validator_take,
       (svid_validator *v, uint64_t now, const uint8_t *messages, size_t messages_len, svid_told *told),
       (v, now, messages, messages_len, told))
EXPORT(svid_validator_tell, (svid_validator *v, uint8_t *out, size_t out_len, svid_told *told), (v, out, out_len, told))
EXPORT_VOID(svid_validator_close, (svid_validator *v), (v))

EXPORT(svid_bearer_token, (uint64_t fields, const uint8_t *value, size_t value_len, svid_bearer *out), (fields, value, value_len, out))
EXPORT(svid_token_says,
       (const uint8_t *token, size_t token_len, svid_said *said, size_t *lens, size_t lens_len, uint8_t *out, size_t out_len,
        svid_told *told),
       (token, token_len, said, lens, lens_len, out, out_len, told))
EXPORT(svid_token_signature,
       (const uint8_t *token, size_t token_len, svid_signed *over, uint8_t *out, size_t out_len, svid_told *told),
       (token, token_len, over, out, out_len, told))
EXPORT(svid_entries_read,
       (const uint8_t *messages, size_t messages_len, svid_entry *out, size_t out_len, svid_told *told),
       (messages, messages_len, out, out_len, told))
EXPORT(svid_entries_write,
       (const svid_entry *entries, size_t entries_len, uint8_t *out, size_t out_len, svid_told *told),
       (entries, entries_len, out, out_len, told))
EXPORT(svid_id_allows,
       (const uint8_t *pattern, size_t pattern_len, const uint8_t *id, size_t id_len, svid_id *out),
       (pattern, pattern_len, id, id_len, out))
EXPORT(svid_validator_open_by_lengths,
       (svid_validator *v, const svid_terms *terms, const uint8_t *own, size_t own_len, const size_t *lens, size_t lens_len,
        const uint8_t *bundles, size_t bundles_len, svid_told *told),
       (v, terms, own, own_len, lens, lens_len, bundles, bundles_len, told))
EXPORT(svid_validator_bundles,
       (svid_validator *v, const uint8_t *bundles, size_t bundles_len, svid_told *told),
       (v, bundles, bundles_len, told))
EXPORT(svid_validator_tick, (svid_validator *v, uint64_t now, svid_told *told), (v, now, told))
EXPORT(svid_validator_parts,
       (svid_validator *v, svid_part *part, uint8_t *out, size_t out_len, svid_told *told),
       (v, part, out, out_len, told))
EXPORT(svid_validator_size, (svid_validator *v, svid_size *out, svid_told *told), (v, out, told))
EXPORT(svid_validator_summary, (svid_validator *v, uint8_t *out, size_t out_len, svid_told *told), (v, out, out_len, told))
EXPORT(svid_validator_answer,
       (svid_validator *v, uint64_t now, const uint8_t *summary, size_t summary_len, uint8_t *out, size_t out_len, svid_told *told),
       (v, now, summary, summary_len, out, out_len, told))
EXPORT(svid_validator_log,
       (svid_validator *v, const svid_mark *mark, uint64_t ready, uint64_t lasts, const uint8_t *beside, size_t beside_len,
        svid_told *told),
       (v, mark, ready, lasts, beside, beside_len, told))
EXPORT(svid_validator_read,
       (svid_validator *v, uint64_t now, uint64_t position, const uint8_t *value, size_t value_len, svid_fate *out, size_t out_len,
        svid_reading *reading, svid_told *told),
       (v, now, position, value, value_len, out, out_len, reading, told))
EXPORT(svid_validator_mark, (svid_validator *v, svid_mark *mark, svid_told *told), (v, mark, told))
EXPORT(svid_validator_go_on, (svid_validator *v, svid_told *told), (v, told))
EXPORT(svid_validator_beside, (svid_validator *v, uint8_t *out, size_t out_len, svid_told *told), (v, out, out_len, told))
EXPORT(svid_bundles_open,
       (svid_bundles *b, const uint8_t *bundles, size_t bundles_len, svid_told *told),
       (b, bundles, bundles_len, told))
EXPORT(svid_bundles_ask,
       (svid_bundles *b, const uint8_t *token, size_t token_len, size_t most, uint8_t *out, size_t out_len, svid_told *told),
       (b, token, token_len, most, out, out_len, told))
EXPORT(svid_bundles_question,
       (svid_bundles *b, const uint8_t *token, size_t token_len, size_t number, svid_question *asked, svid_told *told),
       (b, token, token_len, number, asked, told))
EXPORT(svid_bundles_judge,
       (svid_bundles *b, const svid_setting *setting, const uint8_t *own, size_t own_len, const size_t *lens, size_t lens_len,
        const svid_question *yes, size_t yes_len, const uint8_t *token, size_t token_len, uint8_t *out, size_t out_len, svid_use *used,
        svid_told *told),
       (b, setting, own, own_len, lens, lens_len, yes, yes_len, token, token_len, out, out_len, used, told))
EXPORT_VOID(svid_bundles_close, (svid_bundles *b), (b))
/* (helpers of the header, so that JavaScript writes no message, and has no sentences of a member) */
EXPORT_VOID(svid_batch_of, (const svid_use *used, uint8_t *out), (used, out))
EXPORT_OF(const char *, svid_strsentence, (uint32_t status), (status))

EXPORT(svid_token_open, (svid_token *t, const uint8_t *token, size_t token_len, svid_told *told), (t, token, token_len, told))
EXPORT_VOID(svid_token_close, (svid_token *t), (t))
EXPORT(svid_validator_ask_token,
       (svid_validator *v, svid_token *t, size_t most, uint8_t *out, size_t out_len, svid_told *told),
       (v, t, most, out, out_len, told))
EXPORT(svid_validator_judge_token,
       (svid_validator *v, uint64_t now, const uint8_t *key, size_t key_len, const uint8_t *input, size_t input_len,
        const uint8_t *signature, size_t signature_len, svid_token *t, uint8_t *out, size_t out_len, svid_use *used, svid_told *told),
       (v, now, key, key_len, input, input_len, signature, signature_len, t, out, out_len, used, told))
EXPORT(svid_member_open, (svid_validator *v, const svid_member_terms *terms), (v, terms))
EXPORT(svid_member_know, (svid_validator *v, const svid_known *known), (v, known))
EXPORT(svid_member_ready, (svid_validator *v), (v))
EXPORT(svid_member_come, (svid_validator *v, uint64_t up, svid_deed *deed), (v, up, deed))
EXPORT(svid_member_judge,
       (svid_validator *v, uint64_t now, uint64_t up, uint64_t number, const uint8_t *key, size_t key_len, const uint8_t *input,
        size_t input_len, const uint8_t *signature, size_t signature_len, svid_token *t, uint8_t *out, size_t out_len, svid_use *used,
        svid_deed *deed, svid_told *told),
       (v, now, up, number, key, key_len, input, input_len, signature, signature_len, t, out, out_len, used, deed, told))
EXPORT(svid_member_wrote, (svid_validator *v, uint64_t up, uint64_t number, uint64_t ok, svid_deed *deed), (v, up, number, ok, deed))
EXPORT(svid_member_send, (svid_validator *v, uint64_t up, uint64_t number, svid_deed *deed), (v, up, number, deed))
EXPORT(svid_member_found,
       (svid_validator *v, uint64_t now, uint64_t up, uint64_t number, const uint8_t *caller, const svid_found *found,
        const uint8_t *key, size_t key_len, const uint8_t *input, size_t input_len, const uint8_t *signature, size_t signature_len,
        svid_token *t, uint8_t *out, size_t out_len, svid_use *used, svid_deed *deed, svid_told *told),
       (v, now, up, number, caller, found, key, key_len, input, input_len, signature, signature_len, t, out, out_len, used, deed, told))
EXPORT(svid_member_leave, (svid_validator *v, uint64_t up, uint64_t number, svid_deed *deed), (v, up, number, deed))
EXPORT(svid_member_overdue, (svid_validator *v, uint64_t up, svid_deed *deed), (v, up, deed))
EXPORT(svid_member_due, (svid_validator *v, svid_deadline *out), (v, out))
EXPORT(svid_member_rules,
       (svid_validator *v, const uint8_t *own, size_t own_len, uint64_t all, const uint8_t *callers, size_t callers_len),
       (v, own, own_len, all, callers, callers_len))
EXPORT(svid_withdrawal_come, (svid_validator *v, uint64_t up, svid_withdrawal *made), (v, up, made))
EXPORT(svid_withdrawal_told,
       (svid_validator *v, uint64_t number, uint64_t keeper, uint64_t ok, svid_withdrawal *made),
       (v, number, keeper, ok, made))
EXPORT(svid_withdrawal_overdue, (svid_validator *v, uint64_t up, svid_withdrawal *made), (v, up, made))
EXPORT(svid_pacing_may_send, (const svid_pacing *p, uint64_t up, uint64_t waiting), (p, up, waiting))
EXPORT_OF(uint64_t, svid_pacing_due, (const svid_pacing *p), (p))
EXPORT_VOID(svid_pacing_sent, (svid_pacing *p, uint64_t up), (p, up))
EXPORT_VOID(svid_pacing_answered, (svid_pacing *p), (p))
EXPORT_OF(uint64_t, svid_pacing_unanswered, (svid_pacing *p), (p))
EXPORT_VOID(svid_claim_owner,
            (const uint8_t *validator_id, const uint8_t *life, uint64_t exp, uint8_t *owner),
            (validator_id, life, exp, owner))
EXPORT_VOID(svid_claim_owner_of_caller, (const uint8_t *caller, uint64_t exp, uint8_t *owner), (caller, exp, owner))
EXPORT_OF(uint64_t, svid_claim_until, (uint64_t exp, uint64_t margin), (exp, margin))
EXPORT_OF(uint64_t, svid_claim_deaf, (uint64_t time, uint64_t lasts, uint64_t before), (time, lasts, before))
EXPORT(svid_token_payload,
       (const uint8_t *token, size_t token_len, uint8_t *out, size_t out_len, svid_told *told),
       (token, token_len, out, out_len, told))
EXPORT(svid_journal_open, (svid_folder *f, uint64_t oldest, uint64_t newest), (f, oldest, newest))
EXPORT(svid_journal_begin, (svid_folder *f), (f))
EXPORT(svid_journal_due, (const svid_folder *f, svid_due *due), (f, due))
EXPORT(svid_journal_answer, (svid_folder *f, uint32_t ok), (f, ok))
EXPORT(svid_journal_put,
       (svid_folder *f, const svid_folder_id *folder_id, const uint8_t *payload, size_t payload_len, uint8_t *out, size_t out_len,
        svid_told *told),
       (f, folder_id, payload, payload_len, out, out_len, told))
EXPORT(svid_journal_synced, (svid_folder *f), (f))
EXPORT(svid_journal_unwritten, (svid_folder *f), (f))
EXPORT(svid_journal_failed, (svid_folder *f), (f))
EXPORT(svid_journal_piece,
       (svid_folder *f, const svid_folder_id *folder_id, const uint8_t *payload, size_t payload_len, uint8_t *out, size_t out_len,
        svid_told *told),
       (f, folder_id, payload, payload_len, out, out_len, told))
EXPORT(svid_journal_read,
       (const svid_folder_id *folder_id, uint64_t journal, const uint8_t *bytes, size_t bytes_len, svid_reader *reader,
        svid_frame *frame),
       (folder_id, journal, bytes, bytes_len, reader, frame))
EXPORT_VOID(svid_journal_bears, (const uint8_t *payload, size_t payload_len, svid_bears *bears), (payload, payload_len, bears))
