unsigned stack_of(void (*call)(void));
