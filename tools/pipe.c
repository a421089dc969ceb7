/* A Rattle program begins by having its process pass over SIGPIPE, by this call of the C library. dm, desk and ward end by that signal where it is not
   passed over already, as filters do: so the call does nothing here. */
typedef void (*handler)(int);
handler __sysv_signal(int number, handler how) { (void)number; (void)how; return 0; }
