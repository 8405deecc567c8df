#ifndef ASSERT_H
#define ASSERT_H
#define assert(fact) ((fact) ? (void)0 : __builtin_trap())
#endif
