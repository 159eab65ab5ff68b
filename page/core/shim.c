// What the page calls. `room` returns a buffer for the input, a query answers it, `answer` is where the answer is,
// `ended` how a session ended, and `told` the assembler's faults. A query returns the number of bytes of its answer, -1 if there is no
// memory for them.
typedef unsigned long Size;
typedef unsigned char Byte;
Byte *heap_alloc(Size, Size);
void heap_free(Byte *);
Size ga_session(const Byte *, Size, Byte *, Size, Byte *, Size, unsigned);
Size ga_session_json(const Byte *, Size, Byte *, Size, Byte *, Size, unsigned);
Size ga_kept(const Byte *, Size, Byte *, Size, unsigned);
Size ga_assemble(const Byte *, Size, Byte *, Size, Byte *, Size);
Size ga_check(const Byte *, Size, Byte *, Size, unsigned, unsigned, unsigned);
Size ga_list(const Byte *, Size, Byte *, Size);
Size ga_shades(const Byte *, Size, const Byte *, Size, unsigned, Byte *, Size);
#define PAGE(name) __attribute__((export_name(#name)))

static Byte *input, *output, faults[4096], end;
static Size input_room, output_room;

static Byte *at_least(Byte **buffer, Size *room, Size count) {
    if (*buffer && *room >= count) return *buffer;
    if (*buffer) heap_free(*buffer);
    *room = count < 65536 ? 65536 : 2 * count;
    *buffer = heap_alloc(*room, 16);
    if (!*buffer) *room = 0;
    return *buffer;
}

// Null where there is no memory.
PAGE(room) Byte *room(Size count) { return at_least(&input, &input_room, count); }
PAGE(answer) Byte *answer(void) { return output; }
// How the session ended, as an exit status.
PAGE(ended) unsigned ended(void) { return end; }
// Up to its first 0.
PAGE(told) Byte *told(void) { return faults; }

// Asks once more where the answer had no room.
#define ANSWER(call) \
    if (!at_least(&output, &output_room, 65536)) return -1; \
    Size made = call; \
    if (made <= output_room) return made; \
    if (!at_least(&output, &output_room, made)) return -1; \
    return call;

PAGE(run) Size run(Size count, unsigned limit) { ANSWER(ga_session(input, count, output, output_room, &end, 1, limit)) }
PAGE(run_json) Size run_json(Size count, unsigned limit) { ANSWER(ga_session_json(input, count, output, output_room, &end, 1, limit)) }
PAGE(kept) Size kept(Size count, unsigned limit) { ANSWER(ga_kept(input, count, output, output_room, limit)) }
PAGE(assemble) Size assemble(Size count) {
    __builtin_memset(faults, 0, sizeof faults);
    ANSWER(ga_assemble(input, count, output, output_room, faults, sizeof faults - 1))
}
PAGE(check) Size check(Size count, unsigned most, unsigned limit, unsigned asked) { ANSWER(ga_check(input, count, output, output_room, most, limit, asked)) }
PAGE(list) Size list(Size count) { ANSWER(ga_list(input, count, output, output_room)) }
// The input is an image, followed by the numbers of the nodes.
PAGE(shades) Size shades(Size image, Size nodes, unsigned place) { ANSWER(ga_shades(input, image, input + image, nodes, place, output, output_room)) }
