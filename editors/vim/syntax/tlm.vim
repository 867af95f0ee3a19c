" Vim syntax file: models of tlmsim (*.tlm). .ci/words compares its keywords with the reserved words of the language.
if exists("b:current_syntax")
  finish
endif

syntax keyword tlmItem language resolution descendants
syntax keyword tlmItem module top inst bind to func thread method cthread async_reset sync_reset
syntax keyword tlmItem signal buffer many resolved clock period high start fifo size mutex event keeper semaphore memory var
syntax keyword tlmItem in out fifo_in fifo_out mutex_port semaphore_port export zero all_bound
syntax keyword tlmItem initiator target pass bw bt fw inout sensitive dont_initialize
syntax keyword tlmType bool logic int uint lv time process payload
syntax keyword tlmConditional if else
syntax keyword tlmRepeat while
syntax keyword tlmException guard unwind try catch throw throw_it
syntax keyword tlmStatement call return stop print write read nb_read nb_write
syntax keyword tlmStatement notify delta after cancel wait tick next_trigger for any all
syntax keyword tlmStatement lock trylock unlock sem_wait sem_trywait post
syntax keyword tlmStatement make acquire release carry b_transport nb_transport
syntax keyword tlmStatement qk_global qk_inc qk_set qk_reset qk_sync
syntax keyword tlmStatement spawn suspend resume disable enable kill reset descendants
syntax keyword tlmValue true false now self concat
syntax keyword tlmConstant READ WRITE IGNORE
syntax keyword tlmConstant OK INCOMPLETE GENERIC ADDRESS COMMAND BURST BYTE_ENABLE
syntax keyword tlmConstant BEGIN_REQ END_REQ BEGIN_RESP END_RESP ACCEPTED UPDATED COMPLETED

syntax match tlmMember "\.\s*\h\w*"
syntax match tlmNumber "\<\%(0x\x\+\|\d\+\)\>\%(\s*\<\%(fs\|ps\|ns\|us\|ms\|s\)\>\)\?"
syntax match tlmLogic "'[01ZX]\{1,64}'"
syntax match tlmText "\"[^\"]*\""
syntax match tlmComment "//.*$" contains=tlmTodo
syntax keyword tlmTodo TODO FIXME contained

highlight default link tlmItem Keyword
highlight default link tlmType Type
highlight default link tlmConditional Conditional
highlight default link tlmRepeat Repeat
highlight default link tlmException Exception
highlight default link tlmStatement Statement
highlight default link tlmValue Constant
highlight default link tlmConstant Constant
highlight default link tlmMember Identifier
highlight default link tlmNumber Number
highlight default link tlmLogic Number
highlight default link tlmText String
highlight default link tlmComment Comment
highlight default link tlmTodo Todo

let b:current_syntax = "tlm"
