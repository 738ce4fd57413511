/* The places of tasks and resources in pump.oil. */
enum { Control, Speed, Report, Log };
enum { Bus };
