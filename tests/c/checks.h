/* The groups of checks that the program runs. */
#ifndef CHECKS_H
#define CHECKS_H

void table_checks(void);
void lookup_checks(void);
void words_checks(void);
void convert_checks(void);
void thread_checks(void);
void stack_checks(void);

#endif
