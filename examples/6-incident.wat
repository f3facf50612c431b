;; The incident, the body of 6-incident.hex: chelbugan assemble body examples/6-incident.wat
(func (type 4) (result i32)
  (local $kind (ref 1))
  (local.set $kind (struct.new_default 3))           ;; a descriptor of the long kind
  (struct.get 2 0                                    ;; the long kind's field
    (ref.cast (ref 2)
      (struct.new_desc 0 (local.get $kind)))))       ;; of a short route
