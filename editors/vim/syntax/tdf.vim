" Vim syntax of tdf models (docs/LANGUAGE.md). To use it: put this folder on 'runtimepath', as
"   :set runtimepath+=/PATH/TO/tdf/editors/vim
if exists("b:current_syntax")
  finish
endif

syntax keyword tdfBlock language resolution tdf de composite top end
syntax keyword tdfPart set_attributes initialize processing change_attributes reinitialize process
syntax keyword tdfDeclaration type in out de_in de_out const var array rate event signal de_signal instance bind trace
syntax keyword tdfAttribute timestep delay initial does_attribute_changes accept_attribute_changes reject_attribute_changes sensitive dont_initialize
syntax keyword tdfStatement if else for notify after
syntax keyword tdfOperator and or not select
syntax keyword tdfFormat fixed ufixed trn trn_zero rnd rnd_zero rnd_min_inf rnd_inf rnd_conv wrap sat sat_zero sat_sym
syntax match tdfTime /\<\d\+\(\.\d\+\)\=\(s\|ms\|us\|ns\|ps\|fs\)\>/
syntax match tdfNumber /\<\d\+\(\.\d\+\)\=\>/
syntax match tdfComment /#.*$/

highlight default link tdfBlock Structure
highlight default link tdfPart Label
highlight default link tdfDeclaration Type
highlight default link tdfAttribute PreProc
highlight default link tdfStatement Statement
highlight default link tdfOperator Operator
highlight default link tdfFormat StorageClass
highlight default link tdfTime Number
highlight default link tdfNumber Number
highlight default link tdfComment Comment

let b:current_syntax = "tdf"
