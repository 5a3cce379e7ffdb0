#!/usr/bin/env cwl-runner
cwlVersion: v1.2
class: CommandLineTool
label: Corrections to a BED file, line by line
doc: |
  Writes the corrected track. A refused line changes nothing; `refused` lists each with its number and the reason, and `messages`
  what is to be said of others too.
baseCommand: [python3, -m, bedkeep, apply]
hints:
  SoftwareRequirement:
    packages:
      bedkeep: {}
inputs:
  genome: { type: File, inputBinding: { position: 1 } }
  bed: { type: File, inputBinding: { position: 2 } }
  corrections: { type: "File[]", inputBinding: { position: 3 } }
  second: { type: File?, inputBinding: { prefix: -b } }
arguments: [-o, corrected.bed, --refused, refused.txt]
stderr: messages.txt
outputs:
  corrected: { type: File, outputBinding: { glob: corrected.bed } }
  refused: { type: File, outputBinding: { glob: refused.txt } }
  messages: stderr
