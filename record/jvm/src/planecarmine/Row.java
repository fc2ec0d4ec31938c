package planecarmine;

/** What the calls on one sort of objects of the library become. */
abstract class Row {
    /** Before a call; whether something is left to do after it. */
    abstract boolean before(Bridge.Call c);

    /** After a call that returned; `isTrue` is its answer, and true if it has another. */
    void after(Bridge.Call c, Object result, boolean isTrue) { }

    void threw(Bridge.Call c) { }

    /** Whether the functions that a call is given may run in other threads. */
    boolean givesWork() { return false; }
}
