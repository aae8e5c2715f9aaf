/* Where OCaml's runtime can't go on, that is for want of memory: status 8 and a note, as plift has them. */
#define CAML_INTERNALS
#include <stdarg.h>
#include <unistd.h>
#include <caml/misc.h>
#include <caml/mlvalues.h>

static void out_of_memory(char *message, va_list values) {
    (void)message;
    (void)values;
    if (write(2, "out of memory\n", 14) < 0)
        _exit(8);
    _exit(8);
}

value coq_check_memory(value unit) {
    caml_fatal_error_hook = out_of_memory;
    return unit;
}
