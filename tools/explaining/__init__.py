"""What a refusal, a signal or a denial means, and what to do. tools/explain says it of lines and reports that are kept, and ./cloudabi-run
behind a run. The sentences are those of docs/COMMAND.md, LAUNCH.md, ABI.md and PROGRAMS.md."""
