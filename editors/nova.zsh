#compdef nova
# Completion of nova's words for zsh. Written by editors/complete.
_nova() {
  local -a commands=(
    'asm:assembles an assembly text'
    'build:compiles a source'
    'check:reports errors in sources and what helps'
    'explain:prints the page on a refusal'
    'fmt:formats sources'
    'forms:prints what each pass makes of a source'
    'help:prints the options of a command'
    'list:lists code with its labels'
    'lsp:serves an editor by the Language Server Protocol on the standard input and output'
    'mem:prints the memory text that a readable text says'
    'page:saves a page of HTML'
    'replay:runs the packets of a capture'
    'run:runs an object'
    'test:runs sources on the memory texts beside them'
    'trace:prints the first 1,024 writes of a source on a memory text by its meaning'
    'version:prints the version'
  )
  if (( CURRENT == 2 )); then
    _describe command commands
    return
  fi
  case $words[2] in
    build) _arguments '-o[where the object or the page is saved]:value:_files' '--report[saves the report on the banks with its certificate]:value:_files' '--slots[words of scratch for spilled values]:value:' '--budget[branches of the search for a choice of banks]:value:' '--store[instructions of the code]:value:' '--weights[how often each label is entered]:value:_files' '--deny-warnings[a warning refuses a source]' '--allow[leaves out the warnings of these names]:value:' '--json[prints each error and each warning as an object of JSON on a line of its own]' '--sarif[prints all errors and warnings as one log in the Static Analysis Results Interchange Format]' '--help[prints the options of the command]' '*:file:_files' ;;
    run) _arguments '--budget[branches of the search for a choice of banks]:value:' '--steps[how many steps a run may take]:value:' '--profile[prints on the standard error how many steps it took in each label]' '--counts[saves how often each label was entered]:value:_files' '--trace[prints what the interpreter does on a source]' '--until[ends such a trace early]:value:' '--json[prints each error and each warning as an object of JSON on a line of its own]' '--help[prints the options of the command]' '*:file:_files' ;;
    list) _arguments '--budget[branches of the search for a choice of banks]:value:' '--json[prints each error and each warning as an object of JSON on a line of its own]' '--help[prints the options of the command]' '*:file:_files' ;;
    check) _arguments '--deny-warnings[a warning refuses a source]' '--allow[leaves out the warnings of these names]:value:' '--json[prints each error and each warning as an object of JSON on a line of its own]' '--sarif[prints all errors and warnings as one log in the Static Analysis Results Interchange Format]' '--verbose[prints the sizes of all parts of a source]' '--help[prints the options of the command]' '*:file:_files' ;;
    forms) _arguments '--json[prints each error and each warning as an object of JSON on a line of its own]' '--help[prints the options of the command]' '*:file:_files' ;;
    test) _arguments '--budget[branches of the search for a choice of banks]:value:' '--steps[how many steps a run may take]:value:' '--case[runs the memory text of this name alone]:value:' '--update[writes the outcome text of each memory text that has another outcome or none]' '--coverage[tells which parts of a source no memory text reaches]' '--interpret[runs the interpreter alone]' '--tap[prints the results in the form of the Test Anything Protocol]' '--junit[prints the results in the form of JUnit]' '--json[prints each error and each warning as an object of JSON on a line of its own]' '--help[prints the options of the command]' '*:file:_files' ;;
    trace) _arguments '--steps[how many steps a run may take]:value:' '--line[ends with the first write of this line]:value:' '--json[prints each error and each warning as an object of JSON on a line of its own]' '--help[prints the options of the command]' '*:file:_files' ;;
    page) _arguments '-o[where the object or the page is saved]:value:_files' '--budget[branches of the search for a choice of banks]:value:' '--steps[how many steps a run may take]:value:' '--json[prints each error and each warning as an object of JSON on a line of its own]' '--help[prints the options of the command]' '*:file:_files' ;;
    fmt) _arguments '--json[prints each error and each warning as an object of JSON on a line of its own]' '--check[saves no source]' '--help[prints the options of the command]' '*:file:_files' ;;
    asm) _arguments '-o[where the object or the page is saved]:value:_files' '--json[prints each error and each warning as an object of JSON on a line of its own]' '--help[prints the options of the command]' '*:file:_files' ;;
    mem) _arguments '--json[prints each error and each warning as an object of JSON on a line of its own]' '--help[prints the options of the command]' '*:file:_files' ;;
    replay) _arguments '--steps[how many steps a run may take]:value:' '--json[prints each error and each warning as an object of JSON on a line of its own]' '--at[the quadword of SDRAM at which a packet stands]:value:' '--args[the arguments of main]:value:' '--length[which argument is the packet''s length]:value:' '--table[puts the words of a CSV file into SRAM]:value:' '--memory[the memory text of the memories before the first packet]:value:_files' '--keep[writes packets that raised an exception]' '--drop[under --keep doesn''t write those that raised this one]:value:' '--limit[ends after so many packets]:value:' '--help[prints the options of the command]' '*:file:_files' ;;
    lsp) _arguments '--help[prints the options of the command]' '*:file:_files' ;;
    explain) _arguments '--help[prints the options of the command]' '*:code:(type syntax status warnings)' ;;
    help) _arguments '--help[prints the options of the command]' '*:command:(asm build check explain fmt forms help list lsp mem page replay run test trace version)' ;;
    version) _arguments '--help[prints the options of the command]' '*:file:_files' ;;
  esac
}
_nova "$@"
