;; The add-on of 16-ferry.hex in WebAssembly's text. Its types run on after the library's, which are named by their numbers:
;; chelbugan assemble section --library examples/15-fleet.hex examples/16-ferry.wat
(rec
  (type $ferry (sub final 0 (descriptor $ferry.kind) (struct (field $leg (ref null 2)))))
  (type $ferry.kind (sub final 1 (describes $ferry) (struct)))
)
(type $reader (func (result i32)))
