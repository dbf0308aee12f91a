//! Programs with real executors, which have `deadpool` as any program with backends has it: `tests` has all of them.
