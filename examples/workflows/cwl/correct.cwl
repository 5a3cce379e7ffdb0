#!/usr/bin/env cwl-runner
# The corrected track with the list of refused lines and, only if that is empty, the records that are clear of a mask.
cwlVersion: v1.2
class: Workflow
requirements:
  InlineJavascriptRequirement: {}
inputs:
  genome: File
  bed: File
  corrections: File[]
  mask: File
steps:
  apply:
    run: apply.cwl
    in: { genome: genome, bed: bed, corrections: corrections }
    out: [corrected, refused, messages]
  clear_of_mask:
    run: intersect.cwl
    when: $(inputs.refused.size === 0)
    in: { genome: genome, a: apply/corrected, b: mask, refused: apply/refused, which: { default: -v } }
    out: [rows]
outputs:
  corrected: { type: File, outputSource: apply/corrected }
  refused: { type: File, outputSource: apply/refused }
  messages: { type: File, outputSource: apply/messages }
  clear: { type: File?, outputSource: clear_of_mask/rows }
