" Syntax of Lundocsef's models, messages and journals. To install: copy ftdetect and syntax to ~/.vim.
if exists('b:current_syntax')
  finish
endif

syntax case match
syntax keyword lundocsefPart horizon lead capacity level state kind begin
syntax keyword lundocsefInner param duration use raise lower set link alternative slot order default step
syntax keyword lundocsefWord at start any parent min max
" `must` and `end` are words of messages too, so they are matches, of which the later ones count.
syntax match lundocsefInner /\v<must>/
syntax match lundocsefWord /\v<end>/
syntax match lundocsefNumber /\v<\d+>/
syntax match lundocsefMessage /\v^\s*<(goal|tele|tick|until)>/
syntax match lundocsefMessage /\v^\s*(end|halt)\ze\s*(#.*)?$/
syntax match lundocsefWhether /\v<(must|may)>\ze(\s+\w+\s*\=\s*\d+)*\s*(#.*)?$/
syntax match lundocsefComment /#.*$/ contains=lundocsefTodo
syntax keyword lundocsefTodo TODO FIXME contained

" A journal: the number and the event of an entry, the conflict of a repair, the answer.
syntax match lundocsefEntry /\v^\d+ (open|in|fix|rest|commit|dispatch|close)>/ nextgroup=lundocsefReply skipwhite
syntax match lundocsefReply /\v(ok|end|eof|clear)>/ contained
syntax match lundocsefRefusal /\v(^\d+ (in|rest) )@<=(bad-line|unknown-name|range|duplicate-goal|too-late|too-many-goals|tick-back|tick-beyond|not-begun|end-back|spent|stuck)>/
syntax match lundocsefConflict /\v<(open-goal|off-goal|late|unset|bad-value|undetailed|overrun|temporal|link|over|low|high|must|bad-step)>\ze( \d+){4}/
syntax match lundocsefMove /\v(<by )@<=(add|delete|shift|detail|abstract|assign|drop)>/

highlight default link lundocsefPart Statement
highlight default link lundocsefInner Type
highlight default link lundocsefWord Special
highlight default link lundocsefNumber Number
highlight default link lundocsefMessage Statement
highlight default link lundocsefWhether Special
highlight default link lundocsefComment Comment
highlight default link lundocsefTodo Todo
highlight default link lundocsefEntry Identifier
highlight default link lundocsefReply Special
highlight default link lundocsefRefusal Error
highlight default link lundocsefConflict WarningMsg
highlight default link lundocsefMove Function

let b:current_syntax = 'lundocsef'
