process BEDKEEP_APPLY {
    tag "$meta.id"
    label 'process_single'

    conda "${moduleDir}/environment.yml"
    container "${ workflow.containerEngine == 'singularity' && !task.ext.singularity_pull_docker_container ?
        'https://depot.galaxyproject.org/singularity/bedkeep:1.0.0--py311_0' :
        'biocontainers/bedkeep:1.0.0--py311_0' }"

    input:
    tuple val(meta), path(bed), path(corrections)
    path  sizes

    output:
    tuple val(meta), path("*.corrected.bed"), emit: bed
    tuple val(meta), path("*.refused.txt")  , emit: refused
    tuple val(meta), path("*.review.html")  , emit: review
    path "versions.yml"                     , emit: versions

    when:
    task.ext.when == null || task.ext.when

    script:
    def args   = task.ext.args ?: ''
    def args2  = task.ext.args2 ?: ''
    def prefix = task.ext.prefix ?: "${meta.id}"
    """
    bedkeep-desk apply $args $sizes $bed $corrections -o ${prefix}.corrected.bed --refused ${prefix}.refused.txt || [ \$? -eq 1 ]
    bedkeep-desk review $args2 $sizes $bed $corrections -o ${prefix}.review.html || [ \$? -eq 1 ]

    cat <<-END_VERSIONS > versions.yml
    "${task.process}":
        bedkeep: \$(bedkeep-desk --version | sed 's/bedkeep //')
    END_VERSIONS
    """

    stub:
    def prefix = task.ext.prefix ?: "${meta.id}"
    """
    touch ${prefix}.corrected.bed ${prefix}.refused.txt ${prefix}.review.html

    cat <<-END_VERSIONS > versions.yml
    "${task.process}":
        bedkeep: \$(bedkeep-desk --version | sed 's/bedkeep //')
    END_VERSIONS
    """
}
