" Sources of i7story: sentences of Inform 7. Names aren't known here, so words are told by what they are and where they stand.
if exists("b:current_syntax")
	finish
endif

syntax case ignore
syntax sync fromstart

" Comments nest; texts hold substitutions.
syntax region i7storyComment start="\[" end="\]" contains=i7storyComment
syntax region i7storyText start=+"+ end=+"+ contains=i7storySubstitution
syntax region i7storySubstitution contained start="\[" end="\]" end=+\ze"+ contains=i7storyTextControl,i7storyTextPhrase,i7storyEscape,@i7storyWords
syntax match i7storyTextControl contained "\[\@1<=\%(end if\|if\|otherwise\)\>"
syntax match i7storyTextPhrase contained "\[\@1<=\%(\%(the \|an\= \)\=list of\|description of\)\>"
syntax match i7storyEscape contained "\[\@1<=\%(line break\|paragraph break\|'\)\]\@="

" A paragraph of one line.
syntax match i7storyHeading "\%(\%^\|^\s*\n\)\@8<=\%(volume\|book\|part\|chapter\|section\)\>.*\%(\n\s*\n\|\n\=\%$\)\@="

" Words of plain sentences.
syntax match i7storySentence "\<\%(understand\|as\|can be\|has\|not\|above\|below\|carries\|wears\|carried by\|worn by\|part of\|description of\)\>"
syntax match i7storySentence "\<\%(begins when\|ends when\|has a number called\|and requiring light\|and applying to\)\>"
syntax match i7storySentence "\<\%(is\|are\)\%( usually\| a kind of value\| a kind of\| a rulebook\)\=\>"
syntax match i7storySentence "\<is \%(a number that varies\|a recurring scene\|a scene\|an action applying to\|an action out of world\)\>"
syntax match i7storySentence "\<is \%(not listed in any rulebook\|listed first in\|listed last in\)\>"

" Words that sentences and rules hold. Kinds and properties are told in small letters: names of objects mostly begin with capitals.
syntax match i7storyDirection "\<\%(northeast\|northwest\|southeast\|southwest\|outside\|inside\|north\|south\|east\|west\|down\|up\)\>"
syntax match i7storyObject "\<\%(player\|yourself\|second noun\|noun\|location\|nothing\|nowhere\|turn count\)\>"
syntax match i7storyNumber "[0-9A-Za-z_'-]\@1<!-\=[0-9]\+[0-9A-Za-z_'-]\@!"
syntax case match
syntax match i7storyKind "\<\%(thing\|room\|direction\|door\|container\|supporter\|person\|man\|woman\|device\)s\=\>"
syntax match i7storyKind "\<\%(men\|women\|people\|something\)\>"
syntax match i7storyProperty "\<\%(fixed in place\|switched off\|switched on\|undescribed\|transparent\|unopenable\|described\|touchable\|unvisited\)\>"
syntax match i7storyProperty "\<\%(openable\|portable\|wearable\|lighted\|scenery\|visible\|visited\|closed\|opaque\|unlit\|dark\|open\|lit\)\>"
syntax case ignore
syntax match i7storyOperator contained "\<\%(is\|are\|has\|not\|and\|or\|carries\|wears\|encloses\|carried by\|worn by\|part of\|plus\|minus\|times\)\>"
syntax match i7storyOperator contained "\<\%(is not happening\|is happening\|not in darkness\|in darkness\|has a description\)\>"
syntax match i7storyOperator contained "\<\%(greater than\|less than\|at least\|at most\|number of\)\>"
syntax cluster i7storyWords contains=i7storyOperator,i7storyDirection,i7storyObject,i7storyNumber,i7storyKind,i7storyProperty

" What a rule holds: its name, control, phrases and actions.
syntax match i7storyRuleName contained "(this is\>[^()]*\<rule)" contains=i7storyNameEdge
syntax match i7storyNameEdge contained "(\@1<=this is\>\|\<rule\ze)\|(\|)"
syntax match i7storyControl contained "\%(^\t\+\|[:;,."] *\)\@32<=\%(otherwise if\|otherwise\|repeat with\|if\)\>"
syntax match i7storyControl contained "\<\%(finally\|saying\|running through\|when\|during\)\>"
syntax match i7storyControl contained "\<instead\>\%( *[.;]\| *$\)\@="
syntax match i7storyPhrase contained "\%(^\t\+\|[:;,."] *\)\@32<=\%(silently try\|try\|say\|now\|move\|increase\|decrease\|follow\)\>"
syntax match i7storyPhrase contained "\%(^\t\+\|[:;,."] *\)\@32<=\%(rule succeeds\|rule fails\|stop the action\|make no decision\|continue the action\|end the story\)\>"
syntax match i7storyAction contained "\%(before \|instead of \|check \|carry out \|after \|report \|try \)\@12<=\%(doing anything\|looking\|examining\|taking inventory\|taking off\|taking\|dropping\|putting\|inserting\)\>"
syntax match i7storyAction contained "\%(before \|instead of \|check \|carry out \|after \|report \|try \)\@12<=\%(opening\|closing\|going\|wearing\|waiting\|jumping\|switching on\|switching off\)\>"
syntax cluster i7storyBody contains=i7storyComment,i7storyText,i7storyRuleName,i7storyControl,i7storyPhrase,i7storyAction,@i7storyWords

" A rule with a colon goes on to the next line without a tab in front, one of a phrase after a comma ends as a sentence does.
syntax region i7storyRule start=+\%(^ *\|[.!?"] \)\@32<=\%([^:,.;"()\[\][:space:]]\+ \)\+rule\>\ze[^:,.;"]*:+ end="\n\%(\t\+\S\)\@!" contains=@i7storyBody,i7storyRuleWord
syntax region i7storyRule matchgroup=i7storyHead start=+\%(^ *\|[.!?"] \)\@32<=when\>\ze[^:,.;"]*\<\%(begins\|ends\)\>[^:,.;"]*:+ matchgroup=NONE end="\n\%(\t\+\S\)\@!" contains=@i7storyBody
syntax region i7storyRule matchgroup=i7storyHead start=+\%(^ *\|[.!?"] \)\@32<=\%(before\|instead of\|check\|carry out\|after\|report\|every turn\|when play begins\)\>\ze[^:,.;"]*:+ matchgroup=NONE end="\n\%(\t\+\S\)\@!" contains=@i7storyBody
syntax region i7storyRule start=+\%(^ *\|[.!?"] \)\@32<=\%([^:,.;"()\[\][:space:]]\+ \)\+rule\>\ze[^:,.;"]*,+ end=+\C\%([.!?]'\="\)\@3<=\%( *\%($\|["A-Z]\)\)\@=\|\.\%( \|$\)\@=\|$+ contains=@i7storyBody,i7storyRuleWord
syntax region i7storyRule matchgroup=i7storyHead start=+\%(^ *\|[.!?"] \)\@32<=when\>\ze[^:,.;"]*\<\%(begins\|ends\)\>[^:,.;"]*,+ matchgroup=NONE end=+\C\%([.!?]'\="\)\@3<=\%( *\%($\|["A-Z]\)\)\@=\|\.\%( \|$\)\@=\|$+ contains=@i7storyBody
syntax region i7storyRule matchgroup=i7storyHead start=+\%(^ *\|[.!?"] \)\@32<=\%(before\|instead of\|check\|carry out\|after\|report\|every turn\|when play begins\)\>\ze[^:,.;"]*,+ matchgroup=NONE end=+\C\%([.!?]'\="\)\@3<=\%( *\%($\|["A-Z]\)\)\@=\|\.\%( \|$\)\@=\|$+ contains=@i7storyBody
syntax match i7storyRuleWord contained "\%( \)\@1<=rule\>"
syntax region i7storyLines start="^\ze\t\+\S" end="$" contains=@i7storyBody

highlight default link i7storyComment Comment
highlight default link i7storyText String
highlight default link i7storySubstitution Special
highlight default link i7storyTextControl Conditional
highlight default link i7storyTextPhrase Statement
highlight default link i7storyEscape SpecialChar
highlight default link i7storyHeading Title
highlight default link i7storySentence Keyword
highlight default link i7storyHead PreProc
highlight default link i7storyRuleWord PreProc
highlight default link i7storyRuleName Function
highlight default link i7storyNameEdge PreProc
highlight default link i7storyControl Conditional
highlight default link i7storyPhrase Statement
highlight default link i7storyOperator Operator
highlight default link i7storyAction Function
highlight default link i7storyKind Type
highlight default link i7storyProperty Constant
highlight default link i7storyDirection Constant
highlight default link i7storyObject Identifier
highlight default link i7storyNumber Number

let b:current_syntax = "i7story"
