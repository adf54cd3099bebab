/* The texts of --help. */

#ifndef HELP_H
#define HELP_H

extern const char help_collector[], help_new[], help_edit[], help_delete[], help_knowledge[], help_make[], help_apply[], help_check[],
    help_show[], help_why[], help_compare[], help_coverage[], help_status[], help_scan[], help_renew[], help_answer[], help_exchange[],
    help_pack[], help_unpack[], help_seal[];

#endif
