/* A plugin of gcc. Its pass comes before that of ThreadSanitizer and brings into sight what that one puts no hooks at:
 * a struct that a call returns into memory or takes by value, the operands of a line of assembly, and the memory
 * functions that gcc knows by themselves, such as __builtin_memcpy. */
#include "gcc-plugin.h"
#include "tree.h"
#include "basic-block.h"
#include "function.h"
#include "tree-pass.h"
#include "context.h"
#include "gimple.h"
#include "gimple-iterator.h"
#include "gimple-expr.h"
#include "gimplify.h"
#include "gimplify-me.h"
#include "tree-cfg.h"
#include "ssa.h"
#include "stringpool.h"
#include "attribs.h"
#include "asan.h"
#include "plugin-version.h"
#include <cstring>
#include "instructions.hpp"

int plugin_is_GPL_compatible;

namespace {

/* Whether another thread may access a place: not if it is a local variable whose address nobody has. */
bool may_be_shared(tree place) {
    tree base = get_base_address(place);
    return base && (!DECL_P(base) || is_global_var(base) || may_be_aliased(base));
}

/* Whether a value lies in shared memory and may be copied bit by bit. */
bool is_copied(tree value) {
    tree type = TREE_TYPE(value);
    if (is_gimple_reg(value) || is_gimple_min_invariant(value) || TREE_CODE(value) == WITH_SIZE_EXPR) return false;
    return !TREE_ADDRESSABLE(type) && tree_fits_uhwi_p(TYPE_SIZE_UNIT(type)) && may_be_shared(value);
}

/* A variable that only this function has. */
tree new_variable(tree type) {
    type = TYPE_MAIN_VARIANT(type);
    return is_gimple_reg_type(type) ? make_ssa_name(type) : create_tmp_var(type);
}

/* Inserts a statement before the one at `at`, of the same line. */
void put_before(gimple_stmt_iterator *at, gimple *statement) {
    gimple_set_location(statement, gimple_location(gsi_stmt(*at)));
    gsi_insert_before(at, statement, GSI_SAME_STMT);
}

/* `shared = f()` becomes `result = f()` and `shared = result`. */
void split_result(gimple_stmt_iterator *at, gcall *call) {
    tree to = gimple_call_lhs(call);
    if (!to || !is_copied(to)) return;
    edge next = NULL;
    if (stmt_ends_bb_p(call) && !(next = find_fallthru_edge(gimple_bb(call)->succs))) return;
    tree result = new_variable(TREE_TYPE(to));
    gimple_call_set_lhs(call, result);
    if (TREE_CODE(result) == SSA_NAME) SSA_NAME_DEF_STMT(result) = call;
    update_stmt(call);
    gimple *copy = gimple_build_assign(to, result);
    gimple_set_location(copy, gimple_location(call));
    if (next) gsi_insert_on_edge(next, copy);
    else gsi_insert_after(at, copy, GSI_SAME_STMT);
}

/* `f(shared)` becomes `argument = shared` and `f(argument)`. */
void split_arguments(gimple_stmt_iterator *at, gcall *call) {
    for (unsigned k = 0; k < gimple_call_num_args(call); k++) {
        tree from = gimple_call_arg(call, k);
        if (!is_copied(from)) continue;
        tree argument = new_variable(TREE_TYPE(from));
        put_before(at, gimple_build_assign(argument, from));
        gimple_call_set_arg(call, k, argument);
        update_stmt(call);
    }
}

/* The functions that gcc may replace by code: a call of another function of the same name has hooks. */
const char *name_of(enum built_in_function code) {
    switch (code) {
    case BUILT_IN_MEMCPY: return "memcpy";
    case BUILT_IN_MEMMOVE: return "memmove";
    case BUILT_IN_MEMSET: return "memset";
    case BUILT_IN_MEMCMP: return "memcmp";
    default: return NULL;
    }
}

/* A memory function that gcc knows becomes one that it does not know. */
void rename_function(gcall *call) {
    tree known = gimple_call_fndecl(call);
    const char *name = name_of(DECL_FUNCTION_CODE(known));
    if (!name || gimple_call_num_args(call) != 3) return;
    gimple_call_set_fndecl(call, build_fn_decl(name, TREE_TYPE(known)));
    update_stmt(call);
}

void change_call(gimple_stmt_iterator *at, gcall *call) {
    if (gimple_call_internal_p(call) || gimple_call_from_thunk_p(call)) return;
    if (gimple_call_builtin_p(call, BUILT_IN_NORMAL)) {
        rename_function(call);
        return;
    }
    if (gimple_call_builtin_p(call)) return;
    split_arguments(at, call);
    split_result(at, call);
}

/* Puts the hooks of a line of assembly before it. */
class Hooks {
public:
    explicit Hooks(gimple_stmt_iterator *at) : line(at) {}

    /* A call of the hook of this name for an operand. */
    void put(const char *name, tree operand) {
        tree address = fold_convert(ptr_type_node, build_fold_addr_expr(unshare_expr(operand)));
        address = force_gimple_operand_gsi(line, address, true, NULL_TREE, true, GSI_SAME_STMT);
        tree type =
            build_function_type_list(void_type_node, ptr_type_node, size_type_node, integer_type_node, NULL_TREE);
        tree size = fold_convert(size_type_node, TYPE_SIZE_UNIT(TREE_TYPE(operand)));
        tree is_first = build_int_cst(integer_type_node, !has_hook);
        put_before(line, gimple_build_call(build_fn_decl(name, type), 3, address, size, is_first));
        has_hook = true;
    }

private:
    gimple_stmt_iterator *line;
    bool has_hook = false;
};

/* Whether an operand is memory that an instruction accesses. One of another size may only say what may be accessed. */
bool is_accessed(tree operand) {
    if (is_gimple_reg(operand) || is_gimple_min_invariant(operand) || !may_be_shared(operand)) return false;
    tree size = TYPE_SIZE_UNIT(TREE_TYPE(operand));
    if (!size || !tree_fits_uhwi_p(size)) return false;
    unsigned HOST_WIDE_INT bytes = tree_to_uhwi(size);
    return bytes && bytes <= 16 && !(bytes & (bytes - 1));
}

bool is_output(gasm *line, tree place) {
    for (unsigned k = 0; k < gimple_asm_noutputs(line); k++) {
        tree output = TREE_VALUE(gimple_asm_output_op(line, k));
        if (operand_equal_p(output, place, OEP_ADDRESS_OF | OEP_MATCH_SIDE_EFFECTS)) return true;
    }
    return false;
}

bool clobbers_memory(gasm *line) {
    for (unsigned k = 0; k < gimple_asm_nclobbers(line); k++)
        if (!strcmp(TREE_STRING_POINTER(TREE_VALUE(gimple_asm_clobber_op(line, k))), "memory")) return true;
    return false;
}

/* Hooks for the memory operands of a line of assembly. An instruction with `lock` is an atomic update. A move beside
 * which the compiler moves no other access is an atomic load or store. */
void hook_assembly(gimple_stmt_iterator *at, gasm *line) {
    Instructions all(gimple_asm_string(line));
    if (all.access_nothing) return;
    bool orders = all.are_moves && clobbers_memory(line);
    const char *update = all.is_atomic ? "__tsan_assembly_update" : NULL;
    Hooks hooks(at);
    for (unsigned k = 0; k < gimple_asm_ninputs(line); k++) {
        tree place = TREE_VALUE(gimple_asm_input_op(line, k));
        if (!is_accessed(place) || (update && is_output(line, place))) continue;
        hooks.put(update ? update : orders ? "__tsan_assembly_load" : "__tsan_assembly_read", place);
    }
    for (unsigned k = 0; k < gimple_asm_noutputs(line); k++) {
        tree place = TREE_VALUE(gimple_asm_output_op(line, k));
        if (!is_accessed(place)) continue;
        hooks.put(update ? update : orders ? "__tsan_assembly_store" : "__tsan_assembly_write", place);
    }
}

void change_block(basic_block block) {
    for (gimple_stmt_iterator at = gsi_start_bb(block); !gsi_end_p(at); gsi_next(&at)) {
        gimple *statement = gsi_stmt(at);
        if (gcall *call = dyn_cast<gcall *>(statement)) change_call(&at, call);
        else if (gasm *line = dyn_cast<gasm *>(statement)) hook_assembly(&at, line);
    }
}

unsigned bring_into_sight(function *f) {
    basic_block block;
    FOR_EACH_BB_FN(block, f) change_block(block);
    gsi_commit_edge_inserts();
    return TODO_update_ssa_only_virtuals;
}

const pass_data about = {GIMPLE_PASS, "racebench", OPTGROUP_NONE, TV_NONE, PROP_ssa | PROP_cfg, 0, 0, 0, 0};

/* ThreadSanitizer has a pass for code that is optimized and one for code that is not. */
struct Pass : gimple_opt_pass {
    explicit Pass(bool optimizes) : gimple_opt_pass(about, g), is_for_optimized(optimizes) {}
    opt_pass *clone() final override { return new Pass(is_for_optimized); }
    bool gate(function *f) final override {
        return sanitize_flags_p(SANITIZE_THREAD, f->decl) && is_for_optimized == (optimize > 0);
    }
    unsigned execute(function *f) final override { return bring_into_sight(f); }

private:
    bool is_for_optimized;
};

void put_pass(const char *plugin, Pass *pass, const char *before) {
    register_pass_info where = {pass, before, 0, PASS_POS_INSERT_BEFORE};
    register_callback(plugin, PLUGIN_PASS_MANAGER_SETUP, NULL, &where);
}

} // namespace

int plugin_init(plugin_name_args *plugin, plugin_gcc_version *version) {
    if (!plugin_default_version_check(version, &gcc_version)) return 1;
    put_pass(plugin->base_name, new Pass(true), "tsan");
    put_pass(plugin->base_name, new Pass(false), "tsan0");
    return 0;
}
