" Scripts of dtx: commands that end in a semicolon, and statements of SQL. To use it, copy the folders syntax and ftdetect
" into ~/.vim, or ~/.config/nvim.

if exists("b:current_syntax")
  finish
endif

syntax case ignore

" what a script commands, and the words of these commands
syntax keyword dtxCommand NODE AT STOP START CRASH FAULT CUT JOIN LOSE RECO HOLD DELIVER AGAIN PUMP GIVEUP SHOW
syntax keyword dtxOption STRENGTH LINKS UNDO SESSION WRITE KEEP LEAVE CALL NEXT ON OFF PENDING NEIGHBORS BOOK NET DISK

" the kinds of messages, as LOSE NEXT names them
syntax keyword dtxMessage OPEN OPENED EXEC REPLY PREPARE PREPARED READONLY READY ABORT COMMITPOINT COMMITTED
syntax keyword dtxMessage ROLLEDBACK INDOUBT ACK FORGOTTEN ASK BACK OPENAT

" statements
syntax keyword dtxStatement SELECT INSERT UPDATE DELETE CREATE COMMIT ROLLBACK SAVEPOINT ALTER EXECUTE
syntax keyword dtxWord INTO VALUES SET FROM WHERE AND IS NOT FOR TABLE PRIMARY KEY PUBLIC DATABASE LINK CONNECT TO
syntax keyword dtxWord IDENTIFIED BY USING SYNONYM WORK COMMENT FORCE ADVISE NOTHING SYSTEM ENABLE DISABLE DISTRIBUTED
syntax keyword dtxWord RECOVERY COMMIT_POINT_STRENGTH TRANSACTION READ ONLY
syntax keyword dtxType NUMBER VARCHAR2
syntax keyword dtxNull NULL
syntax keyword dtxFunction COUNT SUM
syntax match dtxFunction "\<DBMS_TRANSACTION\.\(PURGE_MIXED\|PURGE_LOST_DB_ENTRY\)\>"

syntax match dtxNumber "\<\d\+\>"
syntax region dtxText start="'" skip="''" end="'" oneline
syntax match dtxComment "--.*$"

highlight default link dtxCommand Keyword
highlight default link dtxOption Special
highlight default link dtxMessage Constant
highlight default link dtxStatement Statement
highlight default link dtxWord Keyword
highlight default link dtxType Type
highlight default link dtxNull Constant
highlight default link dtxFunction Function
highlight default link dtxNumber Number
highlight default link dtxText String
highlight default link dtxComment Comment

let b:current_syntax = "dtx"
