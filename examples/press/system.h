/* The places of tasks and resources in press.oil. */
enum { Guard, Stroke, Feed, Oil, Clean };
enum { Belt };
