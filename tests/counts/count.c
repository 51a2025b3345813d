/* count IMAGE: executes each case of an x86-64 image (cases.c) in an emulated processor, by the library and by plain C, and prints
 * the instructions of both. Both start from the same memory, must accept if they answer, and must leave the same. A string
 * instruction with a repeat prefix counts once for each repetition. This program itself may run on any processor with the low byte
 * first. */
#include "cases.h"

#include <elf.h>
#include <stdarg.h>
#include <stdio.h>
#include <stdlib.h>
#include <string.h>
#include <unicorn/unicorn.h>

enum { SIDES = 2 };
enum { PAGE_SIZE = 0x1000, STACK_SIZE = 0x10000 };

/* Places that no segment of the image has. A call returns to an address without code, where the emulator stops. */
static const uint64_t stack_start = 0x70000000, stack_top = 0x70000000 + STACK_SIZE - 0x100, back = 0x60000000;

struct count {
    uint64_t instructions, stack;
    uint8_t answer;
};

static uc_engine *processor;
static uint8_t *image;
static const Elf64_Sym *symbols, *symbols_end;
static const char *symbol_names;

/* The segment that can be written: as it is before a case, and as each side left it. */
static uint64_t data_start;
static size_t data_size;
static uint8_t *before, *after[SIDES];

/* The hook is there from the first instruction, since code that was translated without it would not be counted later. */
static struct count counted;

__attribute__((noreturn, format(printf, 1, 2))) static void fail(const char *format, ...)
{
    va_list words;
    va_start(words, format);
    fflush(stdout);
    fputs("count: ", stderr);
    vfprintf(stderr, format, words);
    fputc('\n', stderr);
    va_end(words);
    exit(1);
}

static void must(uc_err error, const char *what)
{
    if (error != UC_ERR_OK)
        fail("%s: %s", what, uc_strerror(error));
}

static void on_instruction(uc_engine *engine, uint64_t address, uint32_t size, void *data)
{
    uint64_t top;
    (void)address, (void)size, (void)data;
    uc_reg_read(engine, UC_X86_REG_RSP, &top);
    counted.instructions++;
    if (stack_top - top > counted.stack)
        counted.stack = stack_top - top;
}

static void *allocate(size_t size)
{
    void *memory = malloc(size);
    if (memory == NULL)
        fail("no memory");
    return memory;
}

static void read_image(const char *name)
{
    FILE *file = fopen(name, "rb");
    if (file == NULL || fseek(file, 0, SEEK_END) != 0)
        fail("%s cannot be opened", name);
    size_t size = (size_t)ftell(file);
    image = allocate(size);
    rewind(file);
    if (fread(image, 1, size, file) != size)
        fail("%s cannot be read", name);
    fclose(file);
}

static void find_symbols(void)
{
    const Elf64_Ehdr *head = (const Elf64_Ehdr *)image;
    const Elf64_Shdr *section = (const Elf64_Shdr *)(image + head->e_shoff), *table = section;
    while (table->sh_type != SHT_SYMTAB)
        if (++table == section + head->e_shnum)
            fail("the image has no symbols");
    symbols = (const Elf64_Sym *)(image + table->sh_offset);
    symbols_end = symbols + table->sh_size / sizeof *symbols;
    symbol_names = (const char *)image + section[table->sh_link].sh_offset;
}

static void map_segment(const Elf64_Phdr *segment)
{
    uint64_t mask = PAGE_SIZE - 1, start = segment->p_vaddr & ~mask;
    size_t size = ((segment->p_vaddr + segment->p_memsz + mask) & ~mask) - start;
    must(uc_mem_map(processor, start, size, UC_PROT_ALL), "a segment");
    must(uc_mem_write(processor, segment->p_vaddr, image + segment->p_offset, segment->p_filesz), "a segment");
    if ((segment->p_flags & PF_W) == 0)
        return;
    if (data_size != 0)
        fail("the image has two segments that can be written");
    data_start = start;
    data_size = size;
}

static void load(const char *name)
{
    read_image(name);
    find_symbols();
    const Elf64_Ehdr *head = (const Elf64_Ehdr *)image;
    const Elf64_Phdr *segment = (const Elf64_Phdr *)(image + head->e_phoff);
    for (int i = 0; i < head->e_phnum; i++)
        if (segment[i].p_type == PT_LOAD)
            map_segment(&segment[i]);
    must(uc_mem_map(processor, stack_start, STACK_SIZE, UC_PROT_ALL), "the stack");
    must(uc_mem_map(processor, back, PAGE_SIZE, UC_PROT_ALL), "the return address");
    before = allocate(data_size);
    for (int side = 0; side < SIDES; side++)
        after[side] = allocate(data_size);
}

static uint64_t address_of(const char *name)
{
    for (const Elf64_Sym *s = symbols; s < symbols_end; s++)
        if (strcmp(symbol_names + s->st_name, name) == 0)
            return s->st_value;
    fail("the image has no %s", name);
}

/* The variable that has a byte at this address, or NULL. */
static const Elf64_Sym *variable_at(uint64_t address)
{
    for (const Elf64_Sym *s = symbols; s < symbols_end; s++)
        if (ELF64_ST_TYPE(s->st_info) == STT_OBJECT && address - s->st_value < s->st_size)
            return s;
    return NULL;
}

/* Six arguments go in registers and the others on the stack, above the return address. */
static struct count call(uint64_t function, const uint64_t arguments[8])
{
    static const int registers[] = {UC_X86_REG_RDI, UC_X86_REG_RSI, UC_X86_REG_RDX,
                                    UC_X86_REG_RCX, UC_X86_REG_R8,  UC_X86_REG_R9};
    uint64_t frame[] = {back, arguments[6], arguments[7]}, top = stack_top - 8, answer;
    must(uc_mem_write(processor, top, frame, sizeof frame), "the stack");
    must(uc_reg_write(processor, UC_X86_REG_RSP, &top), "the stack");
    for (int i = 0; i < 6; i++)
        must(uc_reg_write(processor, registers[i], &arguments[i]), "an argument");
    counted = (struct count){0};
    must(uc_emu_start(processor, function, back, 0, 0), "a call");
    must(uc_reg_read(processor, UC_X86_REG_RAX, &answer), "an answer");
    counted.answer = (uint8_t)answer;
    return counted;
}

static struct job prepare(uint64_t number, uint64_t shelf)
{
    const uint64_t arguments[8] = {number, shelf};
    struct job job;
    call(address_of("prepare"), arguments);
    must(uc_mem_read(processor, address_of("job"), &job, sizeof job), "the job");
    must(uc_mem_read(processor, data_start, before, data_size), "the memory");
    return job;
}

static struct count run(const struct job *job, int side)
{
    struct count sum = {0};
    uint64_t arguments[8];
    memcpy(arguments, job->arguments, sizeof arguments);
    must(uc_mem_write(processor, data_start, before, data_size), "the memory");
    for (uint64_t i = 0; i < job->times; i++, arguments[1]++) {
        struct count count = call(side == 0 ? job->library : job->plain, arguments);
        sum.instructions += count.instructions;
        sum.stack = count.stack > sum.stack ? count.stack : sum.stack;
        sum.answer = job->silent ? 0 : count.answer;
    }
    must(uc_mem_read(processor, data_start, after[side], data_size), "the memory");
    return sum;
}

static void compare_memory(const struct job *job)
{
    size_t at = 0;
    while (at < data_size && after[0][at] == after[1][at])
        at++;
    if (at == data_size)
        return;
    const Elf64_Sym *variable = variable_at(data_start + at);
    if (variable == NULL)
        fail("%s on %s: the two sides differ at %lXh", job->call, job->shelf, (unsigned long)(data_start + at));
    fail("%s on %s: byte %d of %s is %02Xh after the library, %02Xh after plain C", job->call, job->shelf,
         (int)(data_start + at - variable->st_value), symbol_names + variable->st_name, after[0][at], after[1][at]);
}

static void compare(const struct job *job, const struct count count[SIDES])
{
    if (count[0].answer != count[1].answer)
        fail("%s on %s: the library answers %d, plain C %d", job->call, job->shelf, count[0].answer, count[1].answer);
    compare_memory(job);
    if (count[0].answer != 0)
        fail("%s on %s: both answer %d", job->call, job->shelf, count[0].answer);
}

static void print_head(void)
{
    printf("%-30s", "");
    for (uint64_t shelf = 0; shelf < SHELVES; shelf++)
        printf(" %21s", prepare(0, shelf).shelf);
    printf(" %11s\n", "stack");
}

static void count_case(const struct job *job, struct count count[SIDES])
{
    for (int side = 0; side < SIDES; side++)
        count[side] = run(job, side);
    compare(job, count);
}

static void print_call(uint64_t number)
{
    struct count count[SHELVES][SIDES];
    uint64_t stack[SIDES] = {0, 0};
    struct job job;
    for (uint64_t shelf = 0; shelf < SHELVES; shelf++) {
        job = prepare(number, shelf);
        count_case(&job, count[shelf]);
    }
    printf("%-30s", job.call);
    for (int shelf = 0; shelf < SHELVES; shelf++) {
        uint64_t library = count[shelf][0].instructions, plain = count[shelf][1].instructions;
        printf(" %8d %6d %5.2f", (int)library, (int)plain, (double)library / (double)plain);
        for (int side = 0; side < SIDES; side++)
            if (count[shelf][side].stack > stack[side])
                stack[side] = count[shelf][side].stack;
    }
    printf(" %6d %4d\n", (int)stack[0], (int)stack[1]);
}

int main(int argc, char **argv)
{
    uc_hook hook;
    if (argc != 2)
        fail("usage: count IMAGE");
    must(uc_open(UC_ARCH_X86, UC_MODE_64, &processor), "the emulator");
    must(uc_hook_add(processor, &hook, UC_HOOK_CODE, on_instruction, NULL, 1, 0), "the emulator");
    load(argv[1]);
    print_head();
    for (uint64_t number = 0; number < COUNTED_CALLS; number++)
        print_call(number);
    return 0;
}
