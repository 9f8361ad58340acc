/* What the help says of each subcommand, and of all. */
#ifndef COMMAND_HELP_TEXTS_H
#define COMMAND_HELP_TEXTS_H

extern const char read_help[];
extern const char release_help[];
extern const char sheet_help[];
extern const char made_out_help[];
extern const char must_help[];
extern const char names_help[];
extern const char owners_help[];
extern const char setting_help[];
extern const char audit_help[];
extern const char verify_help[];
extern const char check_help[];
extern const char audit_status_help[];
extern const char verify_status_help[];
extern const char hex_help[];
extern const char history_help[];
extern const char split_help[];
extern const char mend_help[];
extern const char handoff_help[];
extern const char map_help[];
extern const char place_help[];
extern const char station_help[];
extern const char out_help[];
extern const char status_help[];
extern const char general_help[];

#endif
