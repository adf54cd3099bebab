/*
 * The texts of --help, in lines of at most 80 columns. The script ./collector prints them too, without building anything, by reading
 * this file: so each line of a text is one string on a line of its own, and has no character that C would have to escape.
 */

#include "help.h"

const char help_collector[] =
    "usage: collector COMMAND [OPTION]... ARGUMENT...\n"
    "\n"
    "A replica is a folder with its store in one file. One server brings another up\n"
    "to date like this: the one that asks sends its knowledge, the other makes a\n"
    "batch for it, and the first applies the batch.\n"
    "\n"
    "Replicas\n"
    "  new FOLDER [ID]                 make a replica\n"
    "  edit FOLDER ITEM TAG            give an item a new version\n"
    "  delete FOLDER ITEM              delete an item\n"
    "  scan FOLDER DIRECTORY           edit and delete as files in a directory say\n"
    "  status FOLDER                   how full it is, and whether all is well\n"
    "  renew NEW-FOLDER FOLDER...      begin again with what old replicas hold\n"
    "  seal FOLDER                     put its files under the key in the folder\n"
    "\n"
    "Trading\n"
    "  knowledge FOLDER KNOWLEDGE      write what to send when asking\n"
    "  make FOLDER KNOWLEDGE BATCH [FIRST LAST]   make a batch for whoever asked\n"
    "  apply FOLDER BATCH              take a batch\n"
    "  answer FOLDER [FIRST LAST]      read a knowledge, write the batch for it\n"
    "  exchange FOLDER COMMAND...      ask through a command, and apply the answer\n"
    "\n"
    "Questions\n"
    "  check FILE                      what a file is, and whether it is valid\n"
    "  show FILE                       a file in words and columns\n"
    "  why FOLDER ITEM [BATCH]         what a replica holds and knows of an item\n"
    "  compare FILE FILE [FIRST LAST]  which of two knows more\n"
    "  coverage FOLDER FILE            how much of a store another one knows\n"
    "\n"
    "For programs that call the library\n"
    "  unpack FILE BYTES               take the envelope off a file\n"
    "  pack BYTES FILE                 put bytes into an envelope\n"
    "\n"
    "collector COMMAND --help says more. Options for many commands:\n"
    "  --json           the answer in JSON, for programs\n"
    "  --full           ids with all their digits\n"
    "  --key FILE       the key of files, if no folder among the arguments has one\n"
    "  --bare           read files without an envelope too, and write them so\n"
    "  --wait SECONDS   how long to wait for another program on the folder (10)\n"
    "  --version, --help (-h), and -- for the end of the options\n"
    "\n"
    "Ids and tags are hexadecimal; short ones are padded with zeros on the left.\n"
    "Long ids are shown by their first digits and two dots, or whole with --full.\n"
    "The last item id is top. A folder stands for its store wherever a file is\n"
    "read; - is standard input or output.\n"
    "\n"
    "Never put a store back from a copy, and never give two replicas one id. Ticks\n"
    "would be given twice, and a server would believe that it holds what it never\n"
    "received. The program holds a store as soon as it sees that this happened: it\n"
    "then changes it no more, and says what to do. It cannot see it in a folder that\n"
    "was put back whole, until another server shows that it knows later edits.\n"
    "\n"
    "Status: 0 done, or yes; 1 refused, with the engine's number, or the answer is\n"
    "no; 2 wrong usage; 3 trouble with a file; 4 the change was made, but what was to\n"
    "follow it (a message, the command of --run) failed.\n";

const char help_new[] =
    "usage: collector new [--key FILE] [--wait SECONDS] FOLDER [ID]\n"
    "\n"
    "Makes a replica in FOLDER, which may exist but must not have a store yet. ID is\n"
    "drawn at random if none is given. No two replicas may ever have the same id, not\n"
    "even after one of them is gone.\n"
    "\n"
    "  --key FILE   copies FILE into the folder as its key: files that its server\n"
    "               reads must then be sealed with this key, and those that it\n"
    "               writes are\n";

const char help_edit[] =
    "usage: collector edit [--wait SECONDS] FOLDER ITEM TAG\n"
    "\n"
    "Gives ITEM a new version, whose content has TAG. An item that does not exist is\n"
    "created, and a deleted one lives again.\n";

const char help_delete[] =
    "usage: collector delete [--wait SECONDS] FOLDER ITEM\n"
    "\n"
    "Deletes ITEM. Its record stays, as a deleted one, so that other servers learn of\n"
    "it.\n";

const char help_knowledge[] =
    "usage: collector knowledge [--key FILE] [--bare] FOLDER KNOWLEDGE\n"
    "\n"
    "Writes what the replica in FOLDER knows to the file KNOWLEDGE. Send it to\n"
    "another server to ask for a batch. With a batch in place of FOLDER it writes\n"
    "what the batch teaches: what a server knows after it has applied the batch.\n";

const char help_make[] =
    "usage: collector make [OPTION]... FOLDER KNOWLEDGE BATCH [FIRST LAST]\n"
    "\n"
    "Writes to BATCH what the replica in FOLDER has and a server with KNOWLEDGE\n"
    "lacks, of the items FIRST to LAST or of all items. FOLDER is only read, so a\n"
    "copy of a store will do.\n"
    "\n"
    "If KNOWLEDGE knows later edits of the replica than FOLDER has, the store was put\n"
    "back from a copy, or two servers use one id: nothing is made, and the folder is\n"
    "held from then on.\n"
    "\n"
    "Options: --key FILE, --bare, --wait SECONDS\n";

const char help_apply[] =
    "usage: collector apply [OPTION]... FOLDER BATCH\n"
    "\n"
    "Takes the versions in BATCH into FOLDER. Batches may come in any order, late or\n"
    "twice. A batch that builds on one that has not arrived yet is refused with 18;\n"
    "it changes nothing, and can be applied later.\n"
    "\n"
    "  --list          a line for each record instead of the message:\n"
    "                    CHANGE ITEM TAG REPLICA TICK [NAME]\n"
    "                  CHANGE is new, changed or deleted, or lost for a version of\n"
    "                  the store or the batch that lost to one that did not know it;\n"
    "                  TAG is - for a deletion; all digits are printed\n"
    "  --json          the same in JSON\n"
    "  --run COMMAND   starts COMMAND with sh, with the list (or JSON) as standard\n"
    "                  input, once the store is safe on the disk\n"
    "\n"
    "Options: --key FILE, --bare, --wait SECONDS\n";

const char help_check[] =
    "usage: collector check [--json] [--full] [--key FILE] [--bare] FILE\n"
    "\n"
    "Says whether FILE is a valid knowledge, store or batch. If it is a folder, also\n"
    "checks that its store is the one that was written last there.\n";

const char help_show[] =
    "usage: collector show [--json | --list] [--full] [--key FILE] [--bare] FILE\n"
    "\n"
    "Shows a knowledge, a store or a batch.\n"
    "\n"
    "  --list   only the live items of a store or batch, one on each line with its\n"
    "           tag, and its name if the folder has one; all digits are printed\n";

const char help_why[] =
    "usage: collector why [OPTION]... FOLDER ITEM [BATCH]\n"
    "\n"
    "Says which version of ITEM the replica holds, which versions it knows, and what\n"
    "apply would do with BATCH: what ITEM would become, or why BATCH would be\n"
    "refused. The status is 1 if it would be refused.\n"
    "\n"
    "Options: --json, --full, --key FILE, --bare\n";

const char help_compare[] =
    "usage: collector compare [OPTION]... FILE FILE [FIRST LAST]\n"
    "\n"
    "Says whether two knowledges, stores or batches know the same, in the items FIRST\n"
    "to LAST or in all items. Without FIRST and LAST it also says what each one lacks\n"
    "first: the lowest item id, whether or not there is such a file, the lowest\n"
    "replica whose edits it lacks there, and the ticks up to which it and the other\n"
    "know these edits, 0 for none.\n"
    "\n"
    "Also says so if one of them knows later edits by the other's own replica than\n"
    "the other does: then that store was put back, or two servers have one id.\n"
    "\n"
    "Two stores that know the same hold the same records. If they do not, an\n"
    "assumption was broken (a store was put back, an id was used twice, a file was\n"
    "damaged), and the items that differ are listed.\n"
    "\n"
    "The status is 0 if they are alike, 1 if not, and 3 if a file is not valid.\n"
    "\n"
    "Options: --json, --full, --key FILE, --bare\n";

const char help_coverage[] =
    "usage: collector coverage [--json] [--key FILE] [--bare] FOLDER FILE\n"
    "\n"
    "Counts the records in FOLDER whose version FILE knows, deleted ones too, and\n"
    "gives the share to the nearest tenth of a per cent, an exact half up. Then says\n"
    "how far one record of an item that FOLDER lacks can move that share, up or down,\n"
    "as long as FILE stays the same. FILE is a knowledge, a store or a batch.\n";

const char help_status[] =
    "usage: collector status [--json] [--full] FOLDER\n"
    "\n"
    "Says how many records, replicas and ranges the store has and how many it may\n"
    "have, its own tick and the largest, and the form of its file. Warns from 80 % of\n"
    "a limit on, and says whether the folder is held because its store was put back.\n"
    "The status is 1 if there is something to warn of.\n";

const char help_scan[] =
    "usage: collector scan [OPTION]... FOLDER DIRECTORY\n"
    "\n"
    "Takes the files in DIRECTORY, and in the directories in it, as items: edits what\n"
    "changed there since the last scan, deletes what is gone since then, and leaves\n"
    "the rest alone, all in one change of the store. An item that other servers\n"
    "brought is left alone until its file has been here. An item's id is made from\n"
    "its name, its tag from its content; the names stand in a file of FOLDER.\n"
    "\n"
    "  --dry-run   only says what would change; the status is 1 if something would\n"
    "  --empty     DIRECTORY may be empty: without this several files that are gone\n"
    "              from an empty directory are not deleted, for a disk may be missing\n"
    "  --list      a line for each change: edited or deleted, ITEM, TAG or -, NAME\n"
    "\n"
    "Options: --json, --wait SECONDS\n";

const char help_renew[] =
    "usage: collector renew [OPTION]... NEW-FOLDER FOLDER...\n"
    "\n"
    "Makes a new replica that holds, for each item, the greatest version that any of\n"
    "the FOLDERs holds: the way out if a store has no room left. Deleted items are\n"
    "left out, which makes room. The FOLDERs are only read. Give all of them: what\n"
    "none of them holds is lost. Says what each of them had that the others lacked.\n"
    "From then on the old replicas must not be asked, made from or edited.\n"
    "\n"
    "Names go with the items. What scan has seen is taken from the first FOLDER: scan\n"
    "only its directory with the new replica, for what was seen and is not in another\n"
    "directory would be deleted.\n"
    "\n"
    "  --id ID      the id of the new replica; drawn at random if none is given\n"
    "  --key FILE   the key of the new folder; without it that of the first FOLDER\n"
    "               that has one\n"
    "\n"
    "Options: --json, --full, --wait SECONDS\n";

const char help_answer[] =
    "usage: collector answer [OPTION]... FOLDER [FIRST LAST]\n"
    "\n"
    "Reads a knowledge from standard input and writes the batch for it to standard\n"
    "output, as make does: the other end of exchange.\n"
    "\n"
    "Options: --key FILE, --bare, --wait SECONDS\n";

const char help_exchange[] =
    "usage: collector exchange [OPTION]... FOLDER COMMAND [ARGUMENT]...\n"
    "\n"
    "Starts COMMAND, gives it what FOLDER knows as its standard input, reads a batch\n"
    "from its standard output, and applies the batch. For example\n"
    "\n"
    "  collector exchange centre ssh north collector answer /srv/north\n"
    "\n"
    "If COMMAND fails nothing changes.\n"
    "\n"
    "Options, in front of FOLDER: --list, --json and --run COMMAND as for apply;\n"
    "--key FILE, --bare, --wait SECONDS\n";

const char help_pack[] =
    "usage: collector pack [--key FILE] BYTES FILE\n"
    "\n"
    "Puts the bytes of a knowledge, a store or a batch, as the library gives them,\n"
    "into an envelope: a line that says what they are, their length, the bytes, and a\n"
    "digest over all of it. They must be valid.\n";

const char help_unpack[] =
    "usage: collector unpack [--key FILE] FILE BYTES\n"
    "\n"
    "Checks the envelope of FILE and writes the bytes in it, as the library takes\n"
    "them. FILE may be a folder, for its store.\n";

const char help_seal[] =
    "usage: collector seal [--key OLD-KEY] [--wait SECONDS] FOLDER\n"
    "\n"
    "Puts the files of the replica under the key that stands in FOLDER now, or under\n"
    "none if there is none. To give a replica a key, copy it to FOLDER/key and seal\n"
    "the folder. To change a key, keep the old one and give it with --key.\n";
