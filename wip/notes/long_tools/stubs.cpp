#include "formats.h"
const Format UTF7={"UTF-7",0,0,{},"UTF-7","UTF-7",true};
const Format JP2={"JP-2",0,0,{},"ISO-2022-JP-2","ISO-2022-JP-2",false};
const Format MAILBOX={"mailbox names",0,0,{},"UTF-7-IMAP","IMAP-mailbox-name",true};
