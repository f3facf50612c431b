;; The two kinds of route of 1-routes.hex in WebAssembly's text: chelbugan assemble section examples/1-routes.wat
(rec
  (type $short (sub (descriptor $short.kind) (struct)))
  (type $short.kind (sub (describes $short) (struct)))
  (type $long (sub $short (descriptor $long.kind) (struct (field $length i32))))
  (type $long.kind (sub $short.kind (describes $long) (struct)))
)
(type $reader (func (result i32)))
