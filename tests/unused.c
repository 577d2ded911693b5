/*
 * Every call and function whose answer must be used, with the answer dropped, one a line. tests/c
 * wants a warning for each of these lines.
 */
#include <sharing_util.h>

uint8_t b[SHARING_MAX_FORM], o[SHARING_MAX_FORM];
uint32_t w[SHARING_MAX_VARIABLES], a;
char t[SHARING_MAX_VARIABLES + 1];
sharing_running s;
sharing_entry e;

int main(void) {
    sharing_read(b, 4, o, 4);
    sharing_pack(b, 4, o, 4);
    sharing_unpack(b, 4, o, 4);
    sharing_convert(1, w, 1, o, 4);
    sharing_change_side(0, b, 4, o, 4);
    sharing_equation(0, b, 4, 1, b, 4, o, 4);
    sharing_unify(0, b, 4, b, 2, b, 2, o, 4);
    sharing_join(0, b, 4, b, 4, o, 4);
    sharing_project(0, b, 4, 1, o, 4);
    sharing_equal(b, 4, b, 4, &a);
    sharing_ground(0, b, 4, 1, &a);
    sharing_independent(0, b, 4, 1, 1, &a);
    sharing_reason(b, 4, 1, b, 4, 1, &a, &w[0], &w[1]);
    sharing_run(0, b, 4, b, 4);
    sharing_unify_run(0, b, 4, b, 4);
    sharing_start(0, b, 4);
    sharing_step(&s, 1, b, 4);
    sharing_unify_step(&s, b, 2, b, 2);
    sharing_write(&s, o, 4);
    sharing_check(b, 4);
    sharing_make_form(1, &e, 1, o, 4);
    sharing_entry_at(b, 4, 0, &e);
    sharing_entry_text(1, e, t, 2);
    sharing_text_entry(t, 1, &e);
    sharing_all_star(1, o, 8);
    sharing_empty(1, o, 4);
    sharing_unknown_form(0, 1, o, 8);
    sharing_all_free(1, o, 8);
    sharing_meeting_group(b, 4, 1, 1, &a);
    sharing_rename(0, b, 4, w, 1, o, 4);
    sharing_select(0, b, 4, w, 1, o, 4);
    sharing_add_free(b, 4, 1, o, 4);
    sharing_set_equation(0, b, 4, 1, 1, o, 4);
    sharing_intersect(b, 4, b, 4, o, 4);
    sharing_unknown_goal(b, 4, 1, o, 4);
    sharing_known_goal(b, 4, b, 4, w, 1, o, 4);
    return 0;
}
