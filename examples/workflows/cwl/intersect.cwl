#!/usr/bin/env cwl-runner
cwlVersion: v1.2
class: CommandLineTool
label: Overlaps of two BED files
baseCommand: [bedkeep, intersect]
hints:
  SoftwareRequirement:
    packages:
      bedkeep: {}
inputs:
  genome: { type: File, inputBinding: { prefix: -g } }
  a: { type: File, inputBinding: { prefix: -a } }
  b: { type: File, inputBinding: { prefix: -b } }
  wa: { type: boolean?, inputBinding: { prefix: -wa } }
  wb: { type: boolean?, inputBinding: { prefix: -wb } }
  which:
    - "null"
    - type: enum
      symbols: [-u, -v, -c]
      inputBinding: {}
stdout: rows.bed
outputs:
  rows: stdout
