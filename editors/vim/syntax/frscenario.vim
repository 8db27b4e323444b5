" Scenarios of musmyrtle: calls of host tasks, faults, and expectations.
if exists("b:current_syntax")
  finish
endif
syntax match frscenarioMagic "\%^frscenario [123]$"
syntax match frscenarioCall "^\s*\zs\(commit\|withdraw\|read\|pop\)\>" nextgroup=frscenarioNode skipwhite
syntax match frscenarioFault "^\s*\zs\(babble\|mute\|lost\)\>" nextgroup=frscenarioNode skipwhite
syntax match frscenarioFault "^\s*\zscorrupt\>"
syntax match frscenarioExpectation "^\s*\zsexpect\(-none\)\?\>-\@!" nextgroup=frscenarioNode skipwhite
syntax match frscenarioEnd "^\s*\zsend\>"
syntax match frscenarioNode "[A-Za-z0-9_.-]\+" contained
syntax match frscenarioBytes "\v<x([0-9a-f]{2})*>"
syntax match frscenarioPlace "\v<[smd]([1-9]\d*(-[1-9]\d*)?>|\*)"
syntax match frscenarioChannels "\v<(A|B|AB)>"
syntax match frscenarioCycles "\v<\d+(-\d+(\/\d+)?)?>|\s\zs\*"
syntax match frscenarioComment "#.*$" contains=@Spell
highlight default link frscenarioMagic PreProc
highlight default link frscenarioCall Function
highlight default link frscenarioFault Exception
highlight default link frscenarioExpectation Statement
highlight default link frscenarioEnd Keyword
highlight default link frscenarioNode Identifier
highlight default link frscenarioBytes String
highlight default link frscenarioPlace Type
highlight default link frscenarioChannels Constant
highlight default link frscenarioCycles Number
highlight default link frscenarioComment Comment
let b:current_syntax = "frscenario"
