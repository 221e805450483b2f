/* How the files in this folder describe an interface. */
#include <stdbool.h>
#include <stddef.h>
#include <stdint.h>

#define CALL(name, ...) \
    uint32_t name(__VA_ARGS__); \
    static uint32_t (*const use_##name)(__VA_ARGS__) __attribute__((used)) = name;
#define HELPER(type, name, ...) \
    type name(__VA_ARGS__); \
    static type (*const use_##name)(__VA_ARGS__) __attribute__((used)) = name;
#define SIZE(type, bytes) _Static_assert(sizeof(type) == (bytes), "the size of " #type);
#define FIELD(type, field, place, kind) \
    _Static_assert(offsetof(type, field) == (place), "the place of " #type "." #field); \
    _Static_assert(_Generic(((type *)0)->field, kind: 1, default: 0), "the type of " #type "." #field);
#define NUMBER(name, value) _Static_assert(name == (value), "the number of " #name);
