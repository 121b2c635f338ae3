" Colours for scripts in VTL 2.0.
if exists('b:current_syntax')
  finish
endif
syntax case match
syntax iskeyword @,48-57,_,.
syntax keyword vtlConstant false null true
syntax keyword vtlFunction abs avg between cast ceil check check_datapoint check_hierarchy count cross_join exists_in fill_time_series first_value floor flow_to_stock full_join hierarchy inner_join instr intersect isnull lag last_value lead left_join length ltrim max median min mod nvl rank ratio_to_report replace round rtrim setdiff stock_to_flow substr sum symdiff timeshift trim trunc union
syntax keyword vtlOperator and in not not_in or xor
syntax keyword vtlKeyword aggr all all_measures always_null always_zero as asc attribute by calc computed current data datapoint dataset date define desc drop else end errorcode errorlevel except filter following group having hierarchical if imbalance invalid is keep measure non_null non_zero order over partial_null partial_zero partition pivot point points preceding rename rule rule_priority ruleset single sub then time_period to unbounded unpivot using variable when
syntax match vtlNumber /\<[0-9]\+\(\.[0-9]\+\)\?\>/
syntax match vtlSign /:=\|<-\|<>\|<=\|>=\|||\|[-+*<>=#]/
syntax region vtlString start=/"/ skip=/""/ end=/"/
syntax match vtlQuoted /'[^']\{1,64}'/
syntax match vtlComment /\/\/.*/
syntax region vtlComment start=/\/\*/ end=/\*\//
highlight default link vtlConstant Constant
highlight default link vtlFunction Function
highlight default link vtlOperator Operator
highlight default link vtlKeyword Statement
highlight default link vtlNumber Number
highlight default link vtlSign Operator
highlight default link vtlString String
highlight default link vtlQuoted Identifier
highlight default link vtlComment Comment
let b:current_syntax = 'vtl'
