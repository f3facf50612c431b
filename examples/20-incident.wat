;; The incident in one text, by names: the types of 1-routes.hex and the body of 6-incident.hex.
;; chelbugan assemble section examples/20-incident.wat
;; chelbugan assemble body examples/20-incident.wat
(module
  (rec
    (type $short (sub (descriptor $short.kind) (struct)))
    (type $short.kind (sub (describes $short) (struct)))
    (type $long (sub $short (descriptor $long.kind) (struct (field $length i32))))
    (type $long.kind (sub $short.kind (describes $long) (struct)))
  )
  (type $reader (func (result i32)))

  (func (type $reader)
    (local $kind (ref $short.kind))
    (local.set $kind (struct.new_default $long.kind))  ;; a descriptor of the long kind
    (struct.get $long $length                          ;; the long kind's field
      (ref.cast (ref $long)
        (struct.new_desc $short (local.get $kind)))))  ;; of a short route
)
