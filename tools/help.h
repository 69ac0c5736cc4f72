/* What --help says. */
#ifndef HELP_H
#define HELP_H

extern const char general_help[], read_help[], write_help[], verdict_help[], duplicates_help[], editions_help[], join_help[],
    cut_help[], compare_help[];

#endif
