" Source of the GA144's nodes.
if exists("b:current_syntax")
  finish
endif
syntax case match
syntax iskeyword 33-126,128-255

syntax keyword f18Opcode ; ex @p @+ @b @ !p !+ !b ! +* 2* 2/ - inv invert + and or xor drop dup pop
syntax keyword f18Opcode over a . nop push b! a!
syntax keyword f18Control begin for again until -until next *next unext while -while repeat if -if
syntax keyword f18Control ahead else then
syntax keyword f18Directive : org /p /a /b .. +cy -cy node constant expect ,
syntax keyword f18Port right down left up io
syntax match f18Port "\%(\S\)\@1<!\%(----\)\@![r-][d-][l-][u-]\S\@!"
syntax match f18Number "\S\@1<!-\?\%(0x\x\+\|\d\+\)\S\@!"
syntax match f18Address "\S\@1<!'\S\+"
syntax match f18Label "\%(\S\@1<!:\s\+\)\@<=\S\+"
syntax match f18Node "\%(\S\@1<!node\s\+\)\@<=\S\+"
syntax match f18Comment "\S\@1<!\\\S\@!.*$"
syntax match f18Comment "\S\@1<!(\S\@!.\{-})\S\@!"

highlight default link f18Opcode Function
highlight default link f18Control Conditional
highlight default link f18Directive Keyword
highlight default link f18Port Constant
highlight default link f18Number Number
highlight default link f18Address Identifier
highlight default link f18Label Label
highlight default link f18Node Title
highlight default link f18Comment Comment

let b:current_syntax = "f18"
