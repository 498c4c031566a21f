
/* The layouts that the module has. */
#define DN_LAYOUT(name, size, last, at) \
    DN_ASSERT(sizeof(dnorm_##name) == (size) && offsetof(dnorm_##name, last) == (at), layout_of_##name)
DN_LAYOUT(handle, 16, full, 8);
DN_LAYOUT(status, 16, line, 8);
DN_LAYOUT(count, 16, code, 8);
DN_LAYOUT(summary, 40, items, 32);
DN_LAYOUT(arc, 40, c, 32);
DN_LAYOUT(place, 40, c, 32);
DN_LAYOUT(item, 24, b, 16);
DN_LAYOUT(value, 24, low, 16);
DN_LAYOUT(difference, 88, right, 64);
DN_LAYOUT(fit, 16, node, 8);
DN_LAYOUT(row, 48, c, 40);
DN_LAYOUT(lines_given, 32, line, 24);
DN_LAYOUT(share, 24, left, 16);

#define A(p) ((u64)(uintptr_t)(p))
#define DN_ENTER \
    u64 stack[DN_STACK / 8]; \
    dn_call c; \
    c.low = A(stack) + 16; \
    c.g0 = A(stack + DN_STACK / 8) & ~(u64)15; \
    c.g1 = 0
#define DN_CALL(type, name, ...) \
    { \
        type r; \
        DN_ENTER; \
        W_##name(&c, A(&r), __VA_ARGS__); \
        return r; \
    }

dnorm_status dnorm_begin(dnorm_handle *reader) DN_CALL(dnorm_status, dnorm_begin, A(reader))
dnorm_status dnorm_feed(dnorm_handle *reader, const uint8_t *bytes, size_t length)
    DN_CALL(dnorm_status, dnorm_feed, A(reader), A(bytes), length)
dnorm_status dnorm_finish(dnorm_handle *reader) DN_CALL(dnorm_status, dnorm_finish, A(reader))
dnorm_status dnorm_lines_begin(dnorm_handle *reader) DN_CALL(dnorm_status, dnorm_lines_begin, A(reader))
dnorm_lines_given dnorm_lines(dnorm_handle *reader, const uint8_t *bytes, size_t length, dnorm_row *out, size_t room)
    DN_CALL(dnorm_lines_given, dnorm_lines, A(reader), A(bytes), length, A(out), room)
dnorm_summary dnorm_facts(const dnorm_handle *any) DN_CALL(dnorm_summary, dnorm_facts, A(any))
dnorm_count dnorm_arc_count(const dnorm_handle *graph, uint8_t form)
    DN_CALL(dnorm_count, dnorm_arc_count, A(graph), form)
dnorm_count dnorm_next(const dnorm_handle *graph, uint8_t form, dnorm_place *place, dnorm_arc *out, size_t room)
    DN_CALL(dnorm_count, dnorm_next, A(graph), form, A(place), A(out), room)
dnorm_count dnorm_items(const dnorm_handle *instance, dnorm_place *place, dnorm_item *out, size_t room)
    DN_CALL(dnorm_count, dnorm_items, A(instance), A(place), A(out), room)
dnorm_status dnorm_canon(const dnorm_handle *instance, uint8_t form, dnorm_handle *text)
    DN_CALL(dnorm_status, dnorm_canon, A(instance), form, A(text))
dnorm_count dnorm_text(dnorm_handle *text, size_t from, uint8_t *out, size_t room)
    DN_CALL(dnorm_count, dnorm_text, A(text), from, A(out), room)
dnorm_difference dnorm_compare(const dnorm_handle *left, const dnorm_handle *right)
    DN_CALL(dnorm_difference, dnorm_compare, A(left), A(right))
dnorm_fit dnorm_fits(const dnorm_handle *graph, const dnorm_handle *companion)
    DN_CALL(dnorm_fit, dnorm_fits, A(graph), A(companion))
dnorm_status dnorm_spread(const dnorm_handle *graph, uint8_t form, const int64_t *flow, size_t flow_count,
                          const dnorm_row *lines, size_t line_count, dnorm_share *shares, size_t share_count,
                          int64_t *units, size_t unit_count)
    DN_CALL(dnorm_status, dnorm_spread, A(graph), form, A(flow), flow_count, A(lines), line_count, A(shares),
            share_count, A(units), unit_count)
void dnorm_free(dnorm_handle *any) {
    DN_ENTER;
    if (any) W_dnorm_release(&c, A(any));
}
